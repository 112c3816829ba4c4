//! The program of client.c in Rust: the same records and the same output.

#[link(name = "morvenka", kind = "static")]
extern "C" {
    fn morvenka_compile(layout: *const u8, layout_len: usize, plan: *mut u8, plan_len: usize) -> u64;
    fn morvenka_plan_read(plan: *const u8, plan_len: usize, record: *const u8, record_len: usize, row: *mut u8, row_len: usize) -> u64;
    fn morvenka_plan_edit(plan: *const u8, plan_len: usize, row: *const u8, row_len: usize, record: *mut u8, record_len: usize) -> u64;
}

// Sizes that suffice for anything accepted.
const PLAN_MAX: usize = 2147;
const RECORD_MAX: usize = 2048;
const ROW_MAX: usize = 8 * 32;

// The roles of digits in a plan.
const DIGITS: [u8; 5] = [0, 1, 15, 16, 17];

const NAMES: [&str; 15] = [
    "OK", "TEXT", "SYMBOL", "LONG", "SHAPE", "DIGITS", "VALUE", "ROOM", "SIZE", "LENGTH", "CONVERSION", "COUNT", "PLAN", "INPUT", "FULL",
];

/// The length of a success, or the refusal in words.
fn length_of(answer: u64) -> Result<usize, String> {
    match (answer % 256) as usize {
        0 => Ok((answer / 65536) as usize),
        number => Err(format!("refused with {number}, {}, at field {}", NAMES[number], answer / 256 % 256)),
    }
}

// Each run below is a slice or a vector, so it is memory of its length, and the lent one overlaps no other: all that a call asks.

fn compile(layout: &str) -> Result<Vec<u8>, String> {
    let mut plan = vec![0; PLAN_MAX];
    let answer = unsafe { morvenka_compile(layout.as_ptr(), layout.len(), plan.as_mut_ptr(), plan.len()) };
    plan.truncate(length_of(answer)?);
    Ok(plan)
}

fn read(plan: &[u8], record: &str) -> Result<Vec<i64>, String> {
    let mut row = [0; ROW_MAX];
    let (from, into) = ((record.as_ptr(), record.len()), (row.as_mut_ptr(), row.len()));
    let answer = unsafe { morvenka_plan_read(plan.as_ptr(), plan.len(), from.0, from.1, into.0, into.1) };
    Ok(row.chunks_exact(8).take(length_of(answer)?).map(|place| i64::from_le_bytes(place.try_into().unwrap())).collect())
}

fn edit(plan: &[u8], numbers: &[i64]) -> Result<String, String> {
    let row: Vec<u8> = numbers.iter().flat_map(|m| m.to_le_bytes()).collect();
    let mut record = vec![0; RECORD_MAX];
    let (from, into) = ((row.as_ptr(), row.len()), (record.as_mut_ptr(), record.len()));
    let answer = unsafe { morvenka_plan_edit(plan.as_ptr(), plan.len(), from.0, from.1, into.0, into.1) };
    record.truncate(length_of(answer)?);
    Ok(String::from_utf8(record).unwrap())
}

/// The scale of a field, counted from 1, by the bytes of an accepted plan.
fn scale(plan: &[u8], field: usize) -> usize {
    let width = |field: usize| plan[3 * field - 2] as usize;
    let first = 3 + 3 * plan[0] as usize + (1..field).map(width).sum::<usize>();
    let vee = plan[3 * field - 1] as usize;
    plan[first + vee..first + width(field)].iter().filter(|role| DIGITS.contains(role)).count()
}

/// A number of a row with its point: 125050 at scale 2 is 1250.50, and -5 is -0.05.
fn amount(m: i64, scale: usize) -> String {
    let digits = format!("{:01$}", m.abs(), scale + 1);
    let (whole, places) = digits.split_at(digits.len() - scale);
    format!("{}{whole}{}{places}", if m < 0 { "-" } else { "" }, if scale > 0 { "." } else { "" })
}

fn show(plan: &[u8], what: &str, record: &str) -> Result<(), String> {
    let numbers = read(plan, record)?;
    for (m, field) in numbers.iter().zip(1..) {
        println!("{what}: field {field} is {}", amount(*m, scale(plan, field)));
    }
    println!("{what}: \"{}\"", edit(plan, &numbers)?);
    Ok(())
}

fn main() {
    let plan = compile("ZZ,ZZ9V.99;$$,$$9V.99CR;(3)Z9;9999V9T;").expect("the layout");
    let record_length: usize = (1..=plan[0] as usize).map(|field| plan[3 * field - 2] as usize).sum();
    println!("layout: {} fields, {record_length} characters", plan[0]);
    let records = [
        ("weighed", " 1,250.50  $312.62CR  4200184C"),
        ("corrected", "     0.75    $0.05CR  4300245}"),
        ("missed", "           $312.62CR  4400000{"),
    ];
    for (what, record) in records {
        show(&plan, what, record).unwrap_or_else(|refusal| println!("{what}: {refusal}"));
    }
}
