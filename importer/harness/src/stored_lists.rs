//! Fifteen lists, each named for what it shows. The theorem `stored_lists` says what is left of
//! them, by computation; the answers are the amended copy's, and are not written here.

use crate::kinds::*;
use crate::lists::List;
use crate::record::Record;
use crate::settings::Settings;

pub struct Named {
    /// Words with hyphens between them.
    pub name: &'static str,
    pub shows: &'static str,
    pub list: List,
}

const LAST: u32 = u32::MAX;

fn plain(count_regs: u32) -> Settings {
    Settings { count_regs, ..Settings::default() }
}

impl Named {
    /// With no table.
    fn new(name: &'static str, shows: &'static str, settings: Settings, list: &[Record]) -> Named {
        let list = List { settings, table: Vec::new(), words: list.concat() };
        Named { name, shows, list }
    }
}

/// All of them, always in this order.
pub fn lists() -> Vec<Named> {
    twelve().into_iter().chain(two_part()).collect()
}

/// The last three, of two-part loads and saves. Among stored answers they stand behind all others, so
/// that the random lists there are the same with them and without.
pub fn two_part() -> [Named; 3] {
    [found_halves(), joining_halves(), read_halves()]
}

/// All but the last three as the stored answers have them, each in its place: there `branches` is a
/// list that question 15 refuses.
pub fn stored() -> [List; 12] {
    twelve().map(|named| if named.name == "branches" { overwritten() } else { named.list })
}

/// All but the last three.
pub fn twelve() -> [Named; 12] {
    [
        named_registers(),
        moves(),
        first_free(),
        older_holder(),
        read_by_others(),
        dropped_loads(),
        complex_mark(),
        complex_loads(),
        same_register(),
        label_and_call(),
        branches(),
        thirty_two(),
    ]
}

fn named_registers() -> Named {
    let records = [
        load(RET, MEM, 0),
        load(0, MEM, 0),
        load(RET, MEM, 0),
        mov(LEFT, 0),
        mov(RIGHT, RIGHT),
        bi(14, TEMP, LEFT, 0),
        save(TEMP, MEM, 0),
        load(1, MEM, 0),
        uni(19, RET, 1),
        mov(0, RIGHT),
    ];
    let shows = "a named register stays as it is, holds nothing and is never found; its Save \
                 clears all the same";
    Named::new("named-registers", shows, Settings { arm: true, ..plain(2) }, &records)
}

fn moves() -> Named {
    let records = [
        load_const(0, 7),
        mov(1, 0),
        save(0, MEM, 0),
        mov(2, 0),
        nop(),
        fused(1, 0, 0, 1, 2),
        mov(0, 0),
        save(RET, MEM, 0),
        mov(1, 0),
        save(1, PARAM, 0),
    ];
    let shows = "a Mov to another colour; to the source's own, found there though not free; to it \
                 by life alone; to a lower one";
    Named::new("moves", shows, plain(3), &records)
}

fn first_free() -> Named {
    let records = [
        load(0, MEM, 0),
        load(1, MEM, 1),
        bi(3, 2, 0, 1),
        load_const(0, 1),
        load(1, MEM, 1),
        load(1, MEM, 0),
        fused(3, 0, 0, 1, 2),
        save(0, PARAM, 0),
        load(1, MEM, 1),
        save(1, MEM, 2),
    ];
    let shows = "a free colour without a location comes before a lower one with; without such, \
                 the first free one loses its own";
    Named::new("first-free", shows, plain(3), &records)
}

fn older_holder() -> Named {
    let records = [
        load(0, MEM, 0),
        load_const(1, 5),
        load(2, PARAM, 1),
        save(1, MEM, 0),
        load(2, MEM, 0),
        load(2, PARAM, 0),
        fused(2, 0, 0, 1, 2),
        save(LEFT, MEM, 0),
        load(1, MEM, 0),
        bi(0, RET, 0, 1),
    ];
    let shows = "a Save clears an older holder; a static that is found shortens no life; another \
                 space is another location";
    Named::new("older-holder", shows, plain(3), &records)
}

fn read_by_others() -> Named {
    let settings = Settings { args: 3, compress: true, ..plain(2) };
    let table = vec![STACK, 19, MEM, 0, STACK, 21, STACK, 19];
    let records = [
        load_const(0, 1),
        save(0, STACK, 22),
        save(0, STACK, 21),
        save(0, STACK, 19),
        save(0, STACK, 18),
        save(0, STACK, 20),
        if_else(1, 0, 0, STACK, 22),
        load_math(2, 1, 1, STACK, 20),
        load_args(1, 2, 1, 0),
        load_const_math(3, RET, 1, LAST),
    ];
    let shows = "IfElse, LoadMath and LoadArgs keep the Saves to what they read, but not to a \
                 pair that none names; the mark is 19";
    let list = List { settings, table, words: records.concat() };
    Named { name: "read-by-others", shows, list }
}

fn dropped_loads() -> Named {
    let records = [
        load_const(0, 1),
        save(0, STACK, 16),
        load(1, STACK, 16),
        save(1, STACK, 17),
        save(0, STACK, 18),
        load(1, STACK, 17),
        load(0, STACK, 18),
        save(0, STACK, LAST),
        save(1, STACK, 17),
        bi(0, RET, 0, 1),
    ];
    let shows = "a dropped Load reads nothing, so the Save goes too; one that is put out keeps \
                 every Save, also a later one";
    Named::new("dropped-loads", shows, plain(2), &records)
}

fn complex_mark() -> Named {
    let records = [
        load_complex(0, 1, MEM, 0),
        save_complex(0, 1, STACK, 21),
        save_complex(1, 0, STACK, 24),
        save_complex(0, 1, STACK, 26),
        save_complex(0, 1, STACK, 22),
        load_complex(0, 2, STACK, 22),
        load_complex(1, 2, STACK, 24),
        load(1, STACK, 27),
        fused(0, RET, 0, 1, 2),
    ];
    let shows = "SaveComplex stays below the mark of 22, with both halves read, with y's alone; \
                 it goes where its LoadComplex does";
    Named::new("complex-mark", shows, Settings { args: 3, complex: true, ..plain(3) }, &records)
}

fn complex_loads() -> Named {
    let records = [
        load_complex(0, 1, MEM, 4),
        save(RET, MEM, 5),
        load_complex(2, 3, MEM, 4),
        complex_bi(0, [0, 1], [2, 3, 2, 1]),
        load_complex(LEFT, 2, MEM, 4),
        load_complex(3, RIGHT, MEM, 4),
        save_complex(0, TEMP, MEM, 4),
        load_complex(1, 0, MEM, 4),
        save_complex(RET, 0, PARAM, LAST - 1),
        load(2, PARAM, LAST),
    ];
    let shows = "LoadComplex stays if x is found and y isn't, or if either is named; SaveComplex \
                 clears both halves";
    Named::new("complex-loads", shows, plain(4), &records)
}

fn same_register() -> Named {
    let records = [
        load_complex(0, 0, MEM, 0),
        load_complex(1, 1, PARAM, 0),
        complex_bi(3, [0, 0], [0, 0, 1, 1]),
        save_complex(0, 0, STACK, 16),
        load(1, STACK, 17),
        load(1, STACK, 16),
        save_complex(1, 1, MEM, 7),
        load(0, MEM, 8),
        load(0, MEM, 7),
    ];
    let shows = "x and y the same register: two statics, of which y's is read; two locations, of \
                 which y's is held";
    Named::new("same-register", shows, plain(2), &records)
}

fn label_and_call() -> Named {
    let records = [
        load(0, MEM, 0),
        load(1, MEM, 1),
        end(),
        label(7),
        load(1, MEM, 1),
        call(7, LAST),
        load(1, MEM, 1),
        save_args(255, 1, 0),
        uni(1, 0, 1),
        save(0, MEM, 0),
    ];
    let shows = "Label and Call forget registers and locations; End is a record like any other";
    Named::new("label-and-call", shows, plain(2), &records)
}

pub fn branches() -> Named {
    let records = [
        load(0, MEM, 1),
        branch_if(0, 9, 1),
        load(2, MEM, 1),
        mov(1, 2),
        branch(9),
        load(0, MEM, 1),
        bi(4, RET, 1, 2),
        branch_if(RET, LAST, 0),
        label(LAST),
        label(9),
    ];
    let shows = "Branch and BranchIf forget lives and locations; past a Branch a colour may be \
                 overwritten before it is read";
    Named::new("branches", shows, plain(3), &records)
}

/// The Mov reads a register whose colour the Load before it has taken.
pub fn overwritten() -> List {
    let records = [
        load(0, MEM, 0),
        load(1, MEM, 1),
        branch_if(1, 9, 1),
        load(2, MEM, 1),
        mov(1, 0),
        branch(9),
        load(0, MEM, 1),
        bi(4, RET, 1, 2),
        branch_if(RET, LAST, 0),
        save(2, MEM, 2),
    ];
    List { settings: plain(3), table: Vec::new(), words: records.concat() }
}

fn thirty_two() -> Named {
    let shows = "each of 32 colours holds a location; the last one is found, and the first one is \
                 given away";
    Named { name: "thirty-two", shows, list: every_colour_holds(32) }
}

/// The same over any even number of registers: loaded in pairs, then the last location again, and a
/// constant. With 64 the theorem would take too many steps.
pub fn every_colour_holds(count_regs: u32) -> List {
    let last = count_regs - 1;
    let pair = |pair| load_complex(2 * pair, last - 2 * pair, PARAM, 2 * pair);
    let end = [load(0, PARAM, last), load_const(last, 2), bi(2, 0, last, 0), save(0, MEM, last)];
    let words = (0..count_regs / 2).flat_map(pair).chain(end.concat()).collect();
    List { settings: plain(count_regs), table: Vec::new(), words }
}

fn found_halves() -> Named {
    let records = [
        load_const(0, 1),
        save(0, STACK, 16),
        load_complex(1, 2, STACK, 16),
        load_complex(0, 3, STACK, 16),
        load_complex(RET, 1, STACK, 16),
        load_complex(1, LEFT, STACK, 16),
        load_complex(2, 2, STACK, 15),
        load_complex(1, 1, STACK, 16),
        complex_bi(2, [0, 1], [0, 3, 2, 1]),
        save_complex(0, 1, MEM, 0),
    ];
    let shows = "LoadComplex stays with x alone found, with y alone, with one found and the \
                 other named; it goes with both found";
    Named::new("found-halves", shows, plain(4), &records)
}

fn joining_halves() -> Named {
    let records = [
        load_const(0, 7),
        save(0, STACK, 16),
        load_complex(1, 2, STACK, 16),
        bi(2, 0, 1, 2),
        save(0, STACK, 21),
        load_complex(1, 2, STACK, 20),
        complex_bi(1, [0, 1], [0, 1, 2, 2]),
        save_complex(0, 1, MEM, 0),
    ];
    let shows = "a half that is found is read all the same where the load is put out: the Save to \
                 x's half stays, and the one to y's";
    Named::new("joining-halves", shows, plain(3), &records)
}

fn read_halves() -> Named {
    let records = [
        load_complex(0, 1, MEM, 0),
        save_complex(0, 1, STACK, 15),
        save_complex(0, 1, STACK, 18),
        save_complex(1, 1, STACK, 20),
        save_complex(1, 0, STACK, 22),
        load(RET, STACK, 18),
        load_math(2, 2, 0, STACK, 21),
        load_complex(0, 1, STACK, 22),
        complex_bi(3, [0, 0], [0, 1, 2, 2]),
        save(0, PARAM, 0),
    ];
    let shows = "SaveComplex stays with x's half read, with y's half read, one below the mark of \
                 16; it goes with none read";
    Named::new("read-halves", shows, plain(3), &records)
}
