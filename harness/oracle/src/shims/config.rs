// config::ARGS. The originals read plain bool fields (`if config::ARGS.lbr_disable`), so ARGS is a unit static
// whose Deref picks one of the constant argument sets by a thread-local switch that the harness turns.
use std::cell::Cell;
pub struct Args {
    pub lbr_disable: bool,
    pub pemdas: bool,
    pub code_only: bool,
    pub verbose: bool,
    pub trace: bool,
    pub mhz: Option<f32>,
}
const fn mk(lbr_disable: bool, pemdas: bool) -> Args {
    Args { lbr_disable, pemdas, code_only: false, verbose: false, trace: false, mhz: None }
}
static SETS: [Args; 4] = [mk(false, false), mk(true, false), mk(false, true), mk(true, true)];
thread_local! { static SEL: Cell<usize> = const { Cell::new(2) }; }
pub struct Sel;
pub static ARGS: Sel = Sel;
impl std::ops::Deref for Sel {
    type Target = Args;
    fn deref(&self) -> &Args {
        &SETS[SEL.with(|s| s.get())]
    }
}
/// harness switch: widening of short branches not allowed
pub fn set_lbr_disable(on: bool) {
    SEL.with(|s| s.set(s.get() & !1 | on as usize))
}
/// harness switch: PEMDAS order of operations in parse_valexpr (default on)
pub fn set_pemdas(on: bool) {
    SEL.with(|s| s.set(s.get() & !2 | (on as usize) << 1))
}
pub fn auto_load_syms() -> bool {
    false
}
