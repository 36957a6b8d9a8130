// A peer with QuantLib, in doubles: quantlib REPEATS MODE < BOOK
//
// The book has to be an accepted one. What is printed, `src/peer.rs` says. Flows are worked out before the time starts.
//   direct  yearly rates on a line between the nodes, and each flow discounted by QuantLib's InterestRate
//   cut     the same with each rate cut to whole millionths, as document 01 has it: for comparing values
//   curve   QuantLib's InterpolatedZeroCurve and CashFlows::npv, whose rates between nodes differ a little
//
// Debian: apt-get install libquantlib0-dev; g++ -O2 quantlib.cpp -lQuantLib -o quantlib
#include <ql/quantlib.hpp>

#include <chrono>
#include <cstdint>
#include <cstdio>
#include <string>
#include <vector>

using namespace QuantLib;

enum { BLOCK = 512, RECORD = 56, NODE = 20, COMPONENTS = 3 };

struct Flow {
    long day;
    double amount;
};

struct BookCurve {
    long steps[COMPONENTS], ranges[COMPONENTS];
    std::vector<long> days, rates, components[COMPONENTS];
    std::vector<double> times;
    std::vector<Flow> flows;
    Leg leg;
};

enum class Mode { direct, cut, curve };

static const long last_day = 10950;
static const Date today(15, November, 2026);
static const DayCounter calendar = Actual365Fixed();

static uint64_t field(const uint8_t *bytes, int count) {
    uint64_t number = 0;
    while (count--) number = number << 8 | bytes[count];
    return number;
}

static int64_t half_up(__int128 number, __int128 divisor) {
    return (int64_t)((2 * number + divisor) / (2 * divisor));
}

static BookCurve read_curve(const uint8_t *block) {
    BookCurve curve;
    for (int i = 0; i < COMPONENTS; i++) {
        curve.steps[i] = block[7 + i];
        curve.ranges[i] = field(block + 12 + 2 * i, 2);
    }
    for (const uint8_t *node = block + 20; node < block + 20 + NODE * block[6]; node += NODE) {
        curve.days.push_back(field(node, 2));
        curve.times.push_back(field(node, 2));
        curve.rates.push_back(field(node + 4, 4));
        for (int i = 0; i < COMPONENTS; i++)
            curve.components[i].push_back((int32_t)field(node + 8 + 4 * i, 4));
    }
    return curve;
}

// The payments after a day and up to another.
struct Window {
    long after, until;
};

static void add_payments(BookCurve &curve, const uint8_t *record, double sign, Window window) {
    long first = field(record + 12, 2), period = field(record + 14, 2), security = record[5];
    long count = security == 1 ? 1 : field(record + 16, 2);
    __int128 coupon = field(record + 20, 4), nominal = field(record + 24, 8);
    for (long i = 0, day = first; i < count; i++, day += period) {
        if (day <= window.after || day > window.until) continue;
        __int128 amount = half_up(nominal * coupon, 1000000) + (i == count - 1 ? nominal : 0);
        if (security == 3) amount = half_up(amount * field(record + 48, 4), field(record + 52, 4));
        curve.flows.push_back({day, sign * (double)amount});
    }
}

static void add_trade(std::vector<BookCurve> &curves, const uint8_t *record) {
    int kind = record[0], phase = record[2], security_curve = record[3];
    bool first_side = record[1] == 1;
    double sign = first_side ? 1 : -1;
    long day_1 = field(record + 8, 2), day_2 = field(record + 10, 2), term = field(record + 18, 2);
    __int128 nominal = field(record + 24, 8), cash = field(record + 32, 8), price = field(record + 40, 4);
    BookCurve &cash_curve = curves[record[4] - 1];
    if (kind == 1) {
        __int128 dirty = price + field(record + 44, 4);
        cash_curve.flows.push_back({day_1, -sign * (double)half_up(nominal * dirty, 1000000)});
        add_payments(curves[security_curve - 1], record, sign, {day_1, last_day});
        return;
    }
    __int128 interest = half_up(cash * price * term, 365000000);
    double second_leg = (double)(cash + interest - half_up(interest * 15, 100));
    bool settled = (kind == 2 && phase == 3) || (kind == 3 && phase == 2);
    if (!settled) cash_curve.flows.push_back({day_1, sign * (double)cash});
    else if (kind == 2 && !first_side) return;
    cash_curve.flows.push_back({day_2, -sign * second_leg});
    if (settled) add_payments(curves[security_curve - 1], record, sign, {day_2, last_day});
    else if (security_curve) add_payments(curves[security_curve - 1], record, -sign, {day_1, day_2});
}

static std::vector<BookCurve> read_book(const std::vector<uint8_t> &book) {
    std::vector<BookCurve> curves;
    size_t count = field(&book[8], 2);
    for (size_t i = 1; i <= count; i++) curves.push_back(read_curve(&book[i * BLOCK]));
    for (size_t at = (1 + count) * BLOCK; at < book.size(); at += BLOCK)
        for (int i = 0; i < book[at + 1]; i++) add_trade(curves, &book[at + 4 + i * RECORD]);
    for (BookCurve &curve : curves)
        for (const Flow &flow : curve.flows)
            curve.leg.push_back(ext::make_shared<SimpleCashFlow>(flow.amount, today + flow.day));
    return curves;
}

// The rates of the nodes in millionths: whole ones in the mode `cut`.
static std::vector<double> stressed(const BookCurve &curve, const long (&place)[COMPONENTS], Mode mode) {
    std::vector<double> rates(curve.rates.begin(), curve.rates.end());
    for (size_t node = 0; node < rates.size(); node++) {
        long sum = 0;
        for (int i = 0; i < COMPONENTS; i++)
            if (curve.steps[i]) sum += place[i] * curve.ranges[i] / curve.steps[i] * curve.components[i][node];
        rates[node] += mode == Mode::cut ? (double)(sum / 100) : sum / 100.0;
        rates[node] = std::min(1e6, std::max(0.0, rates[node]));
    }
    return rates;
}

static double value_by_curve(const BookCurve &curve, const std::vector<double> &rates) {
    std::vector<Date> dates;
    std::vector<Rate> yearly;
    auto add = [&](long day, double rate) {
        dates.push_back(today + day);
        yearly.push_back(rate / 1e6);
    };
    if (curve.days[0] > 0) add(0, rates[0]);
    for (size_t i = 0; i < rates.size(); i++) add(curve.days[i], rates[i]);
    add(last_day + 1, rates.back());
    InterpolatedZeroCurve<Linear> zero(dates, yearly, calendar, Calendar(), {}, {}, Linear(), Compounded, Annual);
    return CashFlows::npv(curve.leg, zero, true, today, today);
}

static double value(const BookCurve &curve, const std::vector<double> &rates, Mode mode) {
    if (mode == Mode::curve) return value_by_curve(curve, rates);
    LinearInterpolation line(curve.times.begin(), curve.times.end(), rates.begin());
    double sum = 0, first = curve.times.front(), last = curve.times.back();
    for (const Flow &flow : curve.flows) {
        double day = flow.day, rate = day <= first ? rates.front() : day >= last ? rates.back() : line(day);
        if (mode == Mode::cut && day > first && day < last) {
            size_t i = 0;
            while (curve.days[i + 1] <= flow.day) i++;
            long left = (long)rates[i], rise = (long)rates[i + 1] - left;
            rate = left + rise * (flow.day - curve.days[i]) / (curve.days[i + 1] - curve.days[i]);
        }
        sum += flow.amount * InterestRate(rate / 1e6, calendar, Compounded, Annual).discountFactor(day / 365);
    }
    return sum;
}

struct Worst {
    double base, loss;
    int scenario;
};

static Worst worst_of(const BookCurve &curve, Mode mode) {
    const long none[COMPONENTS] = {0, 0, 0}, *steps = curve.steps;
    Worst worst = {value(curve, stressed(curve, none, mode), mode), -1e300, 0};
    int scenario = 0;
    for (long a = -steps[0]; a <= steps[0]; a++)
        for (long b = -steps[1]; b <= steps[1]; b++)
            for (long c = -steps[2]; c <= steps[2]; c++, scenario++) {
                const long place[COMPONENTS] = {a, b, c};
                double loss = worst.base - value(curve, stressed(curve, place, mode), mode);
                // a later one has to be larger by more than rounding
                if (loss > worst.loss + 0.5) worst.loss = loss, worst.scenario = scenario;
            }
    return worst;
}

int main(int count, char **words) {
    std::string name = count > 2 ? words[2] : "direct";
    Mode mode = name == "curve" ? Mode::curve : name == "cut" ? Mode::cut : Mode::direct;
    int repeats = count > 1 ? std::max(1, atoi(words[1])) : 1;
    std::vector<uint8_t> book;
    for (int byte; (byte = getchar()) != EOF;) book.push_back((uint8_t)byte);
    Settings::instance().evaluationDate() = today;
    std::vector<BookCurve> curves = read_book(book);
    std::vector<Worst> worst(curves.size());
    auto start = std::chrono::steady_clock::now();
    for (int i = 0; i < repeats; i++)
        for (size_t id = 0; id < curves.size(); id++) worst[id] = worst_of(curves[id], mode);
    std::chrono::duration<double> time = std::chrono::steady_clock::now() - start;
    for (size_t id = 0; id < worst.size(); id++)
        printf("curve %zu base %.2f loss %.2f scenario %d\n", id + 1, worst[id].base, worst[id].loss, worst[id].scenario);
    fprintf(stderr, "seconds %.9f\n", time.count() / repeats);
}
