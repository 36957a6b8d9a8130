/* The tries of single calls. Each looks at what its call promises of an input. */
#ifndef CALLS_H
#define CALLS_H

#include "input.h"
#include "seddolki.h"

/* `due` is how the call is to refuse the input's book, number 0 where it is not. */
typedef void try_call(const input *in, seddolki_answer due);

try_call try_bootstrap, try_present_value, try_preview, try_statement, try_strike;

#endif
