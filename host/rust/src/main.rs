//! The second implementation, driven beside the proved library and its programs on the same inputs. The seed is fixed
//! unless ZK_SEED is set; an argument picks the tests with that word in their names. The last line is 'N passed, M
//! failed'; a test's first difference is printed with its input.
mod answer;
mod check;
mod chip_a;
mod chip_b;
mod chip_c;
mod compare;
mod compare_program;
mod compare_sheet;
mod expand;
mod gen;
mod gen_log;
mod gen_sheet;
mod library_a;
mod library_b;
mod library_c;
mod library_look;
mod library_sheet;
mod replay;
mod sheet;

fn main() {
    let mut run = check::Run::start();
    run.test("expand: every component of 4 to 8 bits, and beyond", expand::all);
    run.test("chip A: any call on any chip, and runs", compare::chip_a);
    run.test("chip B: any call on any chip, and runs", compare::chip_b);
    run.test("chip C: any call on any chip, and runs", compare::chip_c);
    run.test("sheets to calls, good and damaged, any buffer", compare_sheet::to_calls);
    run.test("chips to sheets, any buffer", compare_sheet::from_chip);
    run.test("the program replay on logs, good and damaged", compare_program::logs);
    run.test("the program loadlist on sheets, good and damaged", compare_program::sheets);
    run.finish();
}
