//! The processor time of a margin as a book grows.

use crate::page::{line, page, Area, Drawn};
use crate::panel::{Axis, Panel, Point};
use crate::scale::Scale;
use crate::style::{Look, Marker, BLUE, TEXT, TITLE};
use csv::{ReaderBuilder, StringRecord};

/// What the benchmark measured.
#[derive(Clone, Debug)]
pub struct Growth {
    measured: Vec<Measured>,
}

#[derive(Clone, Debug)]
struct Measured {
    grows: String,
    curves: u32,
    trades: u32,
    scenarios: u32,
    milliseconds: f64,
}

const HEADER: &str = "grows,curves,trades,scenarios,flows,valuations,milliseconds";

/// A count of a measured book.
type Count = fn(&Measured) -> u32;

const CURVES: (&str, Count) = ("curves", |book| book.curves);
const TRADES: (&str, Count) = ("trades", |book| book.trades);
const SCENARIOS: (&str, Count) = ("scenarios a curve", |book| book.scenarios);
const TRADES_A_CURVE: (&str, Count) = ("trades a curve", |book| book.trades / book.curves);

/// A panel each: the count that grows, and those that are held.
const PANELS: [[(&str, Count); 3]; 3] = [
    [TRADES, CURVES, SCENARIOS],
    [SCENARIOS, CURVES, TRADES],
    [CURVES, SCENARIOS, TRADES_A_CURVE],
];

const SIZE: (u32, u32) = (1200, 440);

impl Growth {
    /// Reads the benchmark's table; a refusal names the line.
    pub fn read(table: &str) -> Result<Growth, String> {
        let mut lines = ReaderBuilder::new()
            .flexible(true)
            .from_reader(table.as_bytes());
        let header = lines.headers().map_err(|error| error.to_string())?;
        if header.iter().ne(HEADER.split(',')) {
            return Err(format!("the header is not {HEADER}"));
        }
        let line = |record: csv::Result<StringRecord>| {
            let record = record.map_err(|error| error.to_string())?;
            let number = record.position().map_or(0, |place| place.line());
            Measured::read(&record).map_err(|fault| format!("line {number}: {fault}"))
        };
        let measured: Vec<Measured> = lines.records().map(line).collect::<Result<_, _>>()?;
        let growth = Growth { measured };
        let mut panels = PANELS.iter();
        match panels.find(|[(what, _), ..]| growth.of(what).is_empty()) {
            Some([(what, _), ..]) => Err(format!("no line where {what} grow")),
            None => Ok(growth),
        }
    }

    /// The picture as SVG text.
    pub fn draw(&self) -> String {
        page(SIZE, |area| {
            let area = line(area, "Processor time of a margin as a book grows", TITLE)?;
            let areas = area.split_evenly((1, PANELS.len()));
            let mut panels = areas.iter().zip(&PANELS);
            panels.try_for_each(|(area, counts)| self.draw_panel(area, counts))
        })
    }

    /// The books that grow in one way.
    fn of(&self, what: &str) -> Vec<&Measured> {
        let all = self.measured.iter();
        all.filter(|book| book.grows == what).collect()
    }

    fn draw_panel(&self, area: &Area, [grows, held @ ..]: &[(&str, Count); 3]) -> Drawn {
        let books = self.of(grows.0);
        let points = points(&books, grows.1);
        let held = held.iter().filter_map(|held| constant(&books, held));
        let held: Vec<String> = held.collect();
        let area = line(area, &held.join(", "), TEXT)?;
        let largest = books.iter().map(|book| grows.1(book)).max().unwrap_or(0);
        let across = Axis::roomy(grows.0, Scale::whole(largest.max(1), 7), 0.05);
        let up = self.time_axis();
        let mut panel = Panel::new(&area, up.breadth(), &across, &up)?;
        let look = Look::new(BLUE, 2, Marker::Circle(5));
        panel.line(points.clone(), &look)?;
        panel.points(&points, &look)
    }

    /// All panels have the same.
    fn time_axis(&self) -> Axis<'static> {
        let times = self.measured.iter().map(|book| book.milliseconds);
        let longest = times.fold(0.0, f64::max);
        let scale = Scale::new(0.0, if longest > 0.0 { longest } else { 1.0 }, 8);
        Axis::with_room("processor time, ms", scale, [0.0, 0.05])
    }
}

impl Measured {
    fn read(record: &StringRecord) -> Result<Measured, String> {
        let names: Vec<&str> = HEADER.split(',').collect();
        let (cells, due) = (record.len(), names.len());
        if cells != due {
            return Err(format!("{cells} cells in place of {due}"));
        }
        let known = PANELS.map(|[(what, _), ..]| what);
        let wrong =
            |column: usize, due: &str| format!("{} is {due}: {:?}", names[column], &record[column]);
        let count = |column: usize| {
            let count = record[column].parse().ok().filter(|count| *count > 0);
            count.ok_or_else(|| wrong(column, "no count"))
        };
        if !known.contains(&&record[0]) {
            return Err(wrong(0, &format!("none of {}", known.join(", "))));
        }
        let time = record[6].parse().ok();
        let time = time.filter(|time| (0.0..1e9).contains(time));
        Ok(Measured {
            grows: record[0].into(),
            curves: count(1)?,
            trades: count(2)?,
            scenarios: count(3)?,
            milliseconds: time.ok_or_else(|| wrong(6, "no time"))?,
        })
    }
}

fn points(books: &[&Measured], size: Count) -> Vec<Point> {
    let point = |book: &&Measured| (f64::from(size(book)), book.milliseconds);
    books.iter().map(point).collect()
}

/// A count that all the books have in common.
fn constant(books: &[&Measured], (what, count): &(&str, Count)) -> Option<String> {
    let first = count(books.first()?);
    let same = books.iter().all(|book| count(book) == first);
    same.then(|| format!("{what}: {first}"))
}
