use zonealloc::{Mark, MigrateType, Refusal, Row, ZoneSpec};
fn main() -> Result<(), Refusal> {
    let mut row = Row::make(&[ZoneSpec::new("Normal", 0, 65_536, 256, 10)], 1, None)?;
    let mut worker = row.workers().next().expect("a row of one worker");
    let page = worker.alloc(0, 3, MigrateType::Movable, Mark::Low)?;
    worker.free(0, page, 3)
}
