// Random and damaged inputs: each case is made from a seed and its number alone.

use crate::dice::Dice;
use crate::fields::{Family, Sort};
use crate::layout::{Layout, Node, CHECK, CHOICE, FIELD, MARK, OPTION, SEQUENCE};
use crate::reading;
use crate::trees::{self, Part, Style};

pub struct Input {
    pub kind: &'static str,
    pub rule: String,
    pub family: String,
    pub layout: Vec<u8>,
    pub export: Vec<u8>,
}

/// Each kind of input with its share.
const KINDS: [(&str, usize); 12] = [
    ("valid", 24),
    ("trials", 20),
    ("checks", 12),
    ("numbers", 6),
    ("cuts", 6),
    ("limits", 3),
    ("refusals", 10),
    ("damaged", 8),
    ("noise", 4),
    ("long", 2),
    ("reach", 5),
    ("order", 4),
];

pub fn input(seed: u64, number: u64) -> Input {
    let dice = &mut Dice::new(seed, number);
    let shares: Vec<usize> = KINDS.iter().map(|kind| kind.1).collect();
    let kind = KINDS[dice.weighed(&shares)].0;
    let family = family(dice);
    let known = Family::of_words(&family).unwrap();
    let (rule, layout, export) = match kind {
        "valid" => valid(&known, dice),
        "trials" => trials(&known, dice),
        "checks" => checks(&known, dice),
        "numbers" => numbers(&known, dice),
        "cuts" => cuts(&known, dice),
        "limits" => limits(&known, dice),
        "refusals" => refusals(&known, dice),
        "damaged" => damaged(&known, dice),
        "noise" => noise(&known, dice),
        "long" => long(&known, dice),
        "reach" => reach(&known, dice),
        _ => order(&known, dice),
    };
    Input { kind, rule, family, layout, export }
}

type Made = (String, Vec<u8>, Vec<u8>);

fn family(dice: &mut Dice) -> String {
    match dice.weighed(&[60, 20, 20]) {
        0 => "ascii".to_string(),
        1 => "binary".to_string(),
        _ => dice
            .of(&[
                "pair:ascii:binary",
                "pair:binary:ascii",
                "pair:ascii:ascii",
                "pair:pair:binary:ascii:ascii",
                "pair:ascii:pair:binary:ascii",
                "pair:pair:ascii:binary:pair:binary:ascii",
            ])
            .to_string(),
    }
}

/// A tree that has no more than 200 nodes and 16 levels, with the style that it was made in.
fn tree(family: &Family, style: &Style, dice: &mut Dice) -> Part {
    loop {
        let mut left = match dice.weighed(&[30, 50, 17, 3]) {
            0 => dice.from_to(1, 4),
            1 => dice.from_to(3, 14),
            2 => dice.from_to(10, 50),
            _ => dice.from_to(50, 190),
        };
        let root = if dice.percent(85) && style.depth > 1 {
            Part::Sequence(trees::parts(family, style, dice, &mut left, style.depth))
        } else {
            trees::part(family, style, dice, &mut left, style.depth)
        };
        if root.count() <= 200 && root.depth() <= 16 {
            return root;
        }
    }
}

fn layout_file(root: &Part, style: &Style, dice: &mut Dice) -> Vec<u8> {
    let in_order = dice.percent(50);
    trees::file(root, &style.constants, in_order, dice)
}

/// Rows that meet a tree, nearly meet it, or do not, and empty ones.
fn rows(root: &Part, layout: &[u8], family: &Family, dice: &mut Dice) -> Vec<Vec<u8>> {
    let count = match dice.weighed(&[4, 80, 14, 2]) {
        0 => 0,
        1 => dice.from_to(1, 5),
        2 => dice.from_to(6, 15),
        _ => dice.from_to(16, 40),
    };
    let Ok(loaded) = Layout::load(family, layout) else {
        return (0..count).map(|_| some_row(root, family, dice)).collect();
    };
    (0..count)
        .map(|_| if dice.percent(50) { meeting(root, &loaded, family, dice) } else { some_row(root, family, dice) })
        .collect()
}

/// A row that meets the layout, if some tries find one; at times with a damage then.
fn meeting(root: &Part, layout: &Layout, family: &Family, dice: &mut Dice) -> Vec<u8> {
    let mut row = trees::row(root, family, dice);
    for _ in 0..12 {
        if row.len() <= 4096 && reading::meets(layout, family, &row) {
            break;
        }
        row = trees::row(root, family, dice);
    }
    row.truncate(4000);
    if dice.percent(30) { trees::damaged(&row, dice) } else { row }
}

fn some_row(root: &Part, family: &Family, dice: &mut Dice) -> Vec<u8> {
    if dice.percent(4) {
        return Vec::new();
    }
    let mut row = trees::row(root, family, dice);
    if row.len() > 4000 {
        row.truncate(4000);
    }
    for _ in 0..dice.of(&[0, 0, 0, 1, 1, 2, 4]) {
        row = trees::damaged(&row, dice);
    }
    row
}

/// A rule with an export of the rows under it.
fn exported(rows: Vec<Vec<u8>>, dice: &mut Dice) -> (String, Vec<u8>) {
    let (mut rule, export) = if dice.percent(70) { by_newline(&rows, dice) } else { by_width(&rows, dice) };
    while dice.percent(20) {
        let count = rows.len() as i64 + dice.from_to(0, 3) as i64 - 2;
        let count = if dice.percent(30) { dice.of(&[0, 1, 2, 16_777_216]) } else { count.max(0) };
        rule = format!("sample:{count}:{rule}");
    }
    if dice.percent(2) {
        rule = refused_rule(&rule, dice);
    }
    (rule, export)
}

fn by_newline(rows: &[Vec<u8>], dice: &mut Dice) -> (String, Vec<u8>) {
    let mut export = rows.join(&0x0A);
    if !rows.is_empty() && dice.percent(50) {
        export.push(0x0A);
    }
    ("newline".to_string(), export)
}

fn by_width(rows: &[Vec<u8>], dice: &mut Dice) -> (String, Vec<u8>) {
    let wide = rows.iter().map(|row| row.len()).max().unwrap_or(1);
    let width = match dice.weighed(&[60, 25, 15]) {
        0 => wide.clamp(1, 4096),
        1 => rows.first().map_or(3, |row| row.len()).clamp(1, 4096),
        _ => dice.of(&[1, 2, 3, 5, 8, 13, 100, 4095, 4096]),
    };
    // a width that is small beside the rows would cut them into too many
    let width = width.max(rows.iter().map(|row| row.len()).sum::<usize>() / 25).clamp(1, 4096);
    let filler = dice.of(b" 0,\x00");
    let mut export = Vec::new();
    for row in rows {
        let mut row = row.clone();
        if dice.percent(80) {
            row.resize(width, filler);
        }
        export.extend(row);
    }
    if dice.percent(40) {
        export.truncate(export.len() - export.len() % width);
    } else if dice.percent(50) {
        export.extend((0..dice.below(width.min(20))).map(|_| b'x'));
    }
    // leading zeros are decimal digits too
    (if dice.percent(3) { format!("fixed:{width:06}") } else { format!("fixed:{width}") }, export)
}

fn refused_rule(rule: &str, dice: &mut Dice) -> String {
    match dice.below(7) {
        0 => "fixed:0".to_string(),
        1 => "fixed:4097".to_string(),
        2 => format!("sample:16777217:{rule}"),
        3 => "sample:3:fixed:0".to_string(),
        4 => format!("sample:1:sample:99999999:{rule}"),
        5 => "sample:0:sample:2:fixed:5000".to_string(),
        _ => format!("fixed:{}", dice.next()),
    }
}

fn valid(family: &Family, dice: &mut Dice) -> Made {
    let style = Style::any(dice);
    let root = tree(family, &style, dice);
    let layout = layout_file(&root, &style, dice);
    let (rule, export) = exported(rows(&root, &layout, family, dice), dice);
    (rule, layout, export)
}

/// Choices whose branches begin alike, options and checks, inside and behind one another.
fn trials(family: &Family, dice: &mut Dice) -> Made {
    let mut style = Style::any(dice);
    style.shares = dice.of(&[[25, 18, 12, 20, 15, 10], [20, 10, 8, 26, 16, 20], [30, 10, 10, 10, 25, 15]]);
    style.columns = dice.of(&[1, 2, 3]);
    style.depth = dice.of(&[3, 4, 5, 8]);
    if style.constants.is_empty() {
        style.constants = vec![0, 1, 2];
    }
    let root = loop {
        let mut root = tree(family, &style, dice);
        alike(&mut root, dice);
        if root.count() <= 200 && root.depth() <= 16 {
            break root;
        }
    };
    let layout = layout_file(&root, &style, dice);
    let (rule, export) = exported(rows(&root, &layout, family, dice), dice);
    (rule, layout, export)
}

/// Checks between a few columns that several fields go to, in the open and in trials, before and behind them.
fn checks(family: &Family, dice: &mut Dice) -> Made {
    let mut style = Style::any(dice);
    style.columns = dice.from_to(1, 2);
    style.constants = vec![0, 1, 2];
    style.marks = vec![b','];
    let root = loop {
        let root = Part::Sequence(checked_parts(family, &style, dice, 3));
        if root.count() <= 200 {
            break root;
        }
    };
    let layout = layout_file(&root, &style, dice);
    let (rule, export) = exported(rows(&root, &layout, family, dice), dice);
    (rule, layout, export)
}

fn checked_parts(family: &Family, style: &Style, dice: &mut Dice, levels: usize) -> Vec<Part> {
    let mut parts = Vec::new();
    for _ in 0..dice.from_to(2, 4) {
        match dice.weighed(if levels > 1 { &[40, 30, 18, 12] } else { &[50, 50] }) {
            0 => {
                parts.push(counted_field(family, style, dice));
                parts.push(Part::Mark(b','));
            }
            1 => parts.push(trees::check(style, dice)),
            2 => parts.push(Part::Choice(
                (0..dice.from_to(1, 3)).map(|_| Part::Sequence(checked_parts(family, style, dice, levels - 1))).collect(),
            )),
            _ => parts.push(Part::Option(Box::new(Part::Sequence(checked_parts(family, style, dice, levels - 1))))),
        }
    }
    parts
}

/// A field with a column, mostly of a numeric kind.
fn counted_field(family: &Family, style: &Style, dice: &mut Dice) -> Part {
    loop {
        let (kind, p) = trees::known_kind(family, &style.marks, dice);
        if family.sort(kind, p) == Sort::Numeric || dice.percent(20) {
            return Part::Field { kind, p, column: dice.from_to(1, style.columns) as u8 };
        }
    }
}

/// Gives branches of choices the same beginning.
fn alike(part: &mut Part, dice: &mut Dice) {
    match part {
        Part::Sequence(parts) => parts.iter_mut().for_each(|part| alike(part, dice)),
        Part::Option(part) => alike(part, dice),
        Part::Choice(parts) => {
            parts.iter_mut().for_each(|part| alike(part, dice));
            if dice.percent(60) {
                let first = match &parts[0] {
                    Part::Sequence(below) => below[0].clone(),
                    other => other.clone(),
                };
                for part in parts.iter_mut().skip(1) {
                    *part = Part::Sequence(vec![first.clone(), part.clone()]);
                }
            }
        }
        _ => {}
    }
}

/// One field, or one with a mark or a check behind it, and many spellings.
fn numbers(family: &Family, dice: &mut Dice) -> Made {
    let mut style = Style::any(dice);
    style.columns = 1;
    if style.constants.is_empty() {
        style.constants = vec![0, 999_999_999_999, 20240229];
    }
    let field = trees::field(family, &style, dice);
    let check = Part::Check { relation: dice.from_to(1, 4) as u8, left: 1, right: 64 };
    let root = match dice.below(4) {
        0 => field,
        1 => Part::Sequence(vec![field, Part::Mark(b','), Part::Option(Box::new(trees::field(family, &style, dice)))]),
        2 => Part::Sequence(vec![field, check]),
        _ => Part::Sequence(vec![Part::Option(Box::new(Part::Sequence(vec![field.clone(), check]))), field]),
    };
    let layout = layout_file(&root, &style, dice);
    let (rule, export) = exported((0..dice.from_to(5, 20)).map(|_| some_row(&root, family, dice)).collect(), dice);
    (rule, layout, export)
}

/// Files that are odd to cut: empty, newlines alone, empty rows, bytes at random.
fn cuts(family: &Family, dice: &mut Dice) -> Made {
    let style = Style::any(dice);
    let root = Part::Sequence(vec![trees::field(family, &style, dice), Part::Mark(dice.of(&style.marks))]);
    let layout = layout_file(&root, &style, dice);
    let few = dice.of(&[0, 1, 2, 3, 8, 40]);
    let export: Vec<u8> = (0..dice.from_to(0, few)).map(|_| dice.of(b"\n\n\n1a,\x00")).collect();
    let rows = export.split(|byte| *byte == 0x0A).count();
    let mut rule = if dice.percent(60) {
        "newline".to_string()
    } else {
        format!("fixed:{}", dice.of(&[1, 2, 3, 4, 7, export.len().max(1), export.len() + 1, 4096]))
    };
    for _ in 0..dice.of(&[0, 0, 1, 1, 2, 3]) {
        rule = format!("sample:{}:{rule}", dice.of(&[0, 1, 2, rows.max(1) - 1, rows, rows + 1, 16_777_216]));
    }
    (rule, layout, export)
}

/// Layouts at the limits of nodes, constants and depth, and just over them.
fn limits(family: &Family, dice: &mut Dice) -> Made {
    let mut style = Style::any(dice);
    let mut root = tree(family, &style, dice);
    if dice.percent(50) {
        let depth = dice.of(&[15, 16, 16, 17, 17, 18]);
        while root.depth() > depth || root.count() > 150 {
            root = tree(family, &style, dice);
        }
        while root.depth() < depth {
            root = around(root, family, &style, dice);
        }
    }
    if dice.percent(50) {
        let count = dice.of(&[198, 199, 200, 200, 200, 201, 201, 202]);
        let mut parts = match root {
            Part::Sequence(parts) => parts,
            other => vec![other],
        };
        while 1 + parts.iter().map(|part| part.count()).sum::<usize>() < count {
            let place = dice.from_to(0, parts.len());
            let more = if dice.percent(50) { Part::Mark(dice.of(&style.marks)) } else { trees::field(family, &style, dice) };
            parts.insert(place, more);
        }
        root = Part::Sequence(parts);
    }
    if dice.percent(40) {
        let count = dice.of(&[63, 64, 64, 65]);
        style.constants.resize(count, 1);
    }
    let mut layout = layout_file(&root, &style, dice);
    if dice.percent(20) {
        // a check of the last constant, or of the one behind it
        let right = 63 + style.constants.len() + dice.below(2);
        let check = Part::Check { relation: 1, left: 1, right: right.min(255) as u8 };
        layout = layout_file(&Part::Sequence(vec![trees::field(family, &style, dice), check]), &style, dice);
    }
    let rows = (0..dice.from_to(1, 3)).map(|_| some_row(&root, family, dice)).collect();
    let (rule, export) = exported(rows, dice);
    (rule, layout, export)
}

/// A tree with a level more.
fn around(part: Part, family: &Family, style: &Style, dice: &mut Dice) -> Part {
    match dice.below(3) {
        0 => Part::Option(Box::new(part)),
        which => {
            let mut parts = vec![part];
            if dice.percent(50) {
                let place = dice.from_to(0, 1);
                parts.insert(place, trees::field(family, style, dice));
            }
            if which == 1 { Part::Sequence(parts) } else { Part::Choice(parts) }
        }
    }
}

/// Layouts with one, two or three faults, each made for one of the numbers 1 to 7.
fn refusals(family: &Family, dice: &mut Dice) -> Made {
    let (style, root) = loop {
        let mut style = Style::any(dice);
        style.shares[5] += 10;
        let root = tree(family, &style, dice);
        if root.count() > 1 || dice.percent(10) {
            break (style, root);
        }
    };
    let count = dice.of(&[1, 1, 2, 2, 3]);
    let mut numbers: Vec<u8> = (0..count).map(|_| 1 + dice.weighed(&[6, 8, 12, 20, 18, 24, 12]) as u8).collect();
    numbers.sort();
    let mut root = root;
    if numbers.contains(&7) {
        let depth = dice.of(&[17, 17, 18, 20]);
        while root.depth() < depth {
            root = around(root, family, &style, dice);
        }
    }
    let file = layout_file(&root, &style, dice);
    let some_rows = rows(&root, &file, family, dice);
    let mut nodes: Vec<Node> = file[2..2 + 8 * root.count().min(255)].chunks(8).map(Node::of_record).collect();
    for number in numbers.iter().rev() {
        spoil(&mut nodes, *number, family, style.constants.len(), dice);
    }
    let mut layout = trees::packed(&nodes, &style.constants);
    if numbers.contains(&1) {
        layout = miscounted(layout, dice);
    }
    let (rule, export) = exported(some_rows, dice);
    (rule, layout, export)
}

fn miscounted(mut file: Vec<u8>, dice: &mut Dice) -> Vec<u8> {
    match dice.below(9) {
        0 => file[0] = dice.of(&[0, 201, 202, 255]),
        1 => file[1] = dice.of(&[65, 66, 128, 255]),
        2 => file[0] = file[0].wrapping_add(1),
        3 => file[1] += 1,
        4 => file.truncate(dice.of(&[0, 1, 2])),
        5 => drop(file.pop()),
        6 => file.push(0),
        7 => file.extend([0; 8]),
        _ => {
            file[0] = 0;
            file.truncate(2 + 8 * file[1] as usize);
        }
    }
    file
}

fn spoil(nodes: &mut [Node], number: u8, family: &Family, constants: usize, dice: &mut Dice) {
    let which = dice.below(nodes.len());
    let some = |dice: &mut Dice, nodes: &[Node], shapes: &[u8]| {
        let with: Vec<usize> = (0..nodes.len()).filter(|node| shapes.contains(&nodes[*node].shape)).collect();
        if with.is_empty() { None } else { Some(dice.of(&with)) }
    };
    match number {
        2 => spoil_bits(&mut nodes[which], dice),
        3 => spoil_links(nodes, which, dice),
        4 => spoil_names(nodes, which, dice),
        5 => {
            if let Some(field) = some(dice, nodes, &[FIELD]) {
                (nodes[field].kind, nodes[field].parameter) = unknown_kind(family, dice);
            }
        }
        6 => {
            let check = some(dice, nodes, &[CHECK]).filter(|_| dice.percent(70));
            if let Some(node) = check.or_else(|| some(dice, nodes, &[FIELD, CHECK])) {
                spoil_ranges(&mut nodes[node], constants, dice);
            }
        }
        _ => {}
    }
}

/// A kind with a parameter that a family does not know, mostly beside one that it knows.
fn unknown_kind(family: &Family, dice: &mut Dice) -> (u8, u8) {
    loop {
        let near = dice.of(&[(0, 0), (1, 1), (1, 0), (1, 5), (2, 5), (2, 0), (3, 0), (3, 1), (4, 1), (5, 0), (6, 1), (6, 0), (7, 0)]);
        let (kind, p) = if dice.percent(80) { near } else { (dice.below(64) as u8, dice.byte()) };
        let kind = if kind < 32 && dice.percent(40) { kind + 32 } else { kind };
        if family.sort(kind, p) == Sort::Unknown {
            return (kind, p);
        }
    }
}

fn spoil_bits(node: &mut Node, dice: &mut Dice) {
    let some = dice.from_to(1, 63) as u8;
    match (dice.below(3), node.shape) {
        (0, _) => node.shape = dice.of(&[0, 6, 8, 9, 10, 11, 12, 13, 14, 15]),
        (1, _) => node.zero |= 1 << dice.below(24),
        (_, FIELD | CHECK) => node.child = some as usize,
        (_, MARK) => match dice.below(3) {
            0 => node.kind = some,
            1 => node.column = some,
            _ => node.child = some as usize,
        },
        _ => match dice.below(3) {
            0 => node.kind = some,
            1 => node.column = some,
            _ => node.parameter = some,
        },
    }
}

fn spoil_links(nodes: &mut [Node], which: usize, dice: &mut Dice) {
    let count = nodes.len();
    match dice.below(7) {
        0 => nodes[which].next = dice.from_to(1, which + 1),
        1 => nodes[which].child = dice.from_to(1, which + 1),
        2 => nodes[which].next = dice.from_to(count + 1, 255),
        3 => nodes[which].child = dice.from_to(count + 1, 255),
        4 => nodes[0].next = dice.from_to(2, count.max(2)),
        5 => {
            if let Some(node) = nodes.iter_mut().find(|node| [SEQUENCE, CHOICE, OPTION].contains(&node.shape)) {
                node.child = 0;
            }
        }
        _ => {
            let child = nodes.iter().find(|node| node.shape == OPTION).map(|node| node.child);
            if let Some(child) = child.filter(|child| *child < count) {
                nodes[child - 1].next = dice.from_to(child + 1, count);
            }
        }
    }
}

fn spoil_names(nodes: &mut [Node], which: usize, dice: &mut Dice) {
    let count = nodes.len();
    let behind = |dice: &mut Dice| if which + 2 <= count { dice.from_to(which + 2, count) } else { 0 };
    match dice.below(4) {
        0 if which > 0 => nodes[which].next = behind(dice),
        1 if nodes[which].child != 0 => nodes[which].child = behind(dice),
        2 => {
            // both child and next of one node
            if let Some(node) = nodes.iter_mut().skip(1).find(|node| node.child != 0) {
                node.next = node.child;
            }
        }
        _ => nodes[which].next = 0,
    }
}

fn spoil_ranges(node: &mut Node, constants: usize, dice: &mut Dice) {
    if node.shape == FIELD {
        node.column = dice.of(&[33, 34, 63]);
        return;
    }
    match dice.below(3) {
        0 => node.kind = dice.of(&[0, 5, 6, 63]),
        1 => node.column = dice.of(&[0, 33, 63]),
        _ => node.parameter = dice.of(&[0, 33, 63, 64 + constants.min(64) as u8, 127, 128, 255]),
    }
}

/// Good layout files with bits flipped, cut, extended, or with bytes changed.
fn damaged(family: &Family, dice: &mut Dice) -> Made {
    let (rule, mut layout, export) = valid(family, dice);
    for _ in 0..dice.of(&[1, 1, 1, 2, 3]) {
        if layout.is_empty() {
            break;
        }
        let place = dice.below(layout.len());
        match dice.below(8) {
            0..=4 => layout[place] ^= 1 << dice.below(8),
            5 => layout[place] = dice.byte(),
            6 => layout.truncate(place),
            _ => layout.push(dice.byte()),
        }
    }
    (rule, layout, export)
}

/// Layouts at random: bytes, or nodes with fields that are mostly in range.
fn noise(family: &Family, dice: &mut Dice) -> Made {
    let (rule, good, export) = valid(family, dice);
    if dice.percent(30) {
        let mut layout: Vec<u8> = (0..dice.of(&[0, 1, 2, 10, 18, 26, 50])).map(|_| dice.byte()).collect();
        if layout.len() > 1 && dice.percent(80) {
            layout[0] = ((layout.len() - 2) / 8) as u8;
            layout[1] = 0;
        }
        return (rule, layout, export);
    }
    let count = dice.from_to(1, 5);
    let constants = dice.below(3);
    let nodes: Vec<Node> = (1..=count)
        .map(|number| {
            let shape = dice.of(&[FIELD, MARK, SEQUENCE, CHOICE, OPTION, CHECK, SEQUENCE]);
            let link = |dice: &mut Dice| if dice.percent(70) && number < count { number + 1 + dice.below(2) } else { 0 };
            let (kind, p) = trees::known_kind(family, &good, dice);
            match shape {
                FIELD => Node { shape, kind, parameter: p, column: dice.below(34) as u8, next: link(dice), ..Node::default() },
                MARK => Node { shape, parameter: dice.byte(), next: link(dice), ..Node::default() },
                CHECK => Node {
                    shape,
                    kind: dice.below(6) as u8,
                    column: dice.below(34) as u8,
                    parameter: dice.of(&[1, 2, 32, 33, 64, 65, 66]),
                    next: link(dice),
                    ..Node::default()
                },
                _ => Node { shape, child: link(dice), next: if number > 1 { link(dice) } else { 0 }, ..Node::default() },
            }
        })
        .collect();
    (rule, trees::packed(&nodes, &vec![1; constants]), export)
}

/// Rows of about 4,096 bytes.
fn long(family: &Family, dice: &mut Dice) -> Made {
    let style = Style::any(dice);
    let mut root = tree(family, &style, dice);
    if dice.percent(50) {
        let (kind, p) = (1..=255).map(|p| (4, p)).find(|(kind, p)| family.sort(*kind, *p) == Sort::Kept).unwrap_or((3, 255));
        if family.sort(kind, p) == Sort::Kept {
            root = Part::Sequence(vec![root, Part::Field { kind, p, column: 1 }]);
        }
    }
    if root.count() > 200 || root.depth() > 16 {
        root = Part::Mark(b',');
    }
    let layout = layout_file(&root, &style, dice);
    let mut rows = Vec::new();
    for _ in 0..dice.from_to(1, 3) {
        let mut row = some_row(&root, family, dice);
        let length = dice.of(&[4094, 4095, 4096, 4096, 4096, 4097, 4097, 4098, 5000]);
        let place = dice.from_to(0, row.len());
        let filler = dice.of(b"xa0,1");
        while row.len() < length {
            row.insert(place, filler);
        }
        rows.push(row);
        if dice.percent(30) {
            rows.push(some_row(&root, family, dice));
        }
    }
    let (rule, export) = if dice.percent(70) { by_newline(&rows, dice) } else { ("fixed:4096".to_string(), rows.concat()) };
    (rule, layout, export)
}

/// Rows whose reach is about 512: many marks, each with a fault, scrap and the mark, and trials behind them.
fn reach(family: &Family, dice: &mut Dice) -> Made {
    let mut style = Style::any(dice);
    style.marks.retain(|byte| *byte != 0x0A);
    style.marks.push(b',');
    loop {
        let marks: Vec<u8> = (0..dice.from_to(168, 190)).map(|_| dice.of(&style.marks)).collect();
        let mut parts: Vec<Part> = marks.iter().map(|byte| Part::Mark(*byte)).collect();
        let mut tail_style = Style { depth: 4, most_parts: 4, separated: false, ..style_copy(&style) };
        tail_style.shares = [20, 25, 20, 20, 30, 5];
        while dice.percent(60) {
            let mut left = dice.from_to(1, 12);
            parts.push(trees::part(family, &tail_style, dice, &mut left, 4));
        }
        if dice.percent(30) {
            let mut below = parts.split_off(marks.len() - dice.from_to(1, 40));
            if below.is_empty() {
                below.push(Part::Mark(b','));
            }
            parts.push(if dice.percent(50) { Part::Option(Box::new(Part::Sequence(below))) } else { Part::Sequence(below) });
        }
        let mut behind = Vec::new();
        if dice.percent(50) {
            // a trial that is given up has the most lines, those of its last fault counted
            parts.truncate(marks.len());
            let (tried, bytes) = given_up_late(dice);
            parts.push(tried);
            behind = bytes;
        }
        let root = Part::Sequence(parts);
        if root.count() > 200 {
            continue;
        }
        let layout = trees::file(&root, &style.constants, dice.percent(50), dice);
        let Ok(loaded) = Layout::load(family, &layout) else { continue };
        let count = dice.from_to(1, 2);
        let rows = (0..count).map(|_| reaching(&root, &marks, &behind, &loaded, family, dice)).collect::<Vec<_>>();
        let (rule, export) = by_newline(&rows, dice);
        return (rule, layout, export);
    }
}

fn style_copy(style: &Style) -> Style {
    Style { marks: style.marks.clone(), constants: style.constants.clone(), ..*style }
}

/// An option or a choice whose part takes some bytes and then has a fault, and those bytes.
fn given_up_late(dice: &mut Dice) -> (Part, Vec<u8>) {
    let count = dice.from_to(2, 12);
    let mut below = vec![Part::Mark(b'q'); count];
    below.push(Part::Mark(b'r'));
    if dice.percent(30) {
        let first = below.remove(0);
        below.insert(0, Part::Option(Box::new(first)));
    }
    let part = Part::Sequence(below);
    let bytes = [vec![b'q'; count], dice.of(&[vec![], vec![b'q'], vec![b'x']])].concat();
    let all = Part::Sequence(vec![Part::Mark(b'q'); bytes.len()]);
    match dice.below(3) {
        0 => (Part::Option(Box::new(part)), bytes),
        1 => (Part::Choice(vec![part, Part::Mark(b'q')]), bytes),
        _ => (Part::Choice(vec![part, all]), bytes),
    }
}

/// A row with a wrong byte before so many marks that the reach is as wanted, or near that.
fn reaching(root: &Part, marks: &[u8], behind: &[u8], layout: &Layout, family: &Family, dice: &mut Dice) -> Vec<u8> {
    let wanted = match dice.weighed(&[50, 30, 20]) {
        0 => dice.from_to(511, 513),
        1 => dice.from_to(505, 519),
        _ => dice.from_to(380, 590),
    };
    let row = if behind.is_empty() { trees::row(root, family, dice) } else { [marks, behind].concat() };
    let wrong = (0..=255u8).rev().find(|byte| !marks.contains(byte) && *byte != 0x0A).unwrap();
    let with = |count: usize| {
        let mut longer = Vec::new();
        for (place, byte) in row.iter().enumerate() {
            if place < count {
                longer.push(wrong);
            }
            longer.push(*byte);
        }
        longer
    };
    let (mut count, most) = (0, marks.len().min(row.len()));
    while count < most && reading::read(layout, family, &with(count)).1.reach < wanted {
        count += 1;
    }
    let mut row = with(count);
    if dice.percent(25) {
        row = trees::damaged(&row, dice);
    }
    if dice.percent(20) {
        row.push(wrong);
    }
    if dice.percent(10) {
        row.resize(dice.of(&[4096, 4097]), wrong);
    }
    row
}

/// Several refusals at one time: of the rule and the layout, or of a row by 9 and 10.
fn order(family: &Family, dice: &mut Dice) -> Made {
    match dice.below(3) {
        0 => {
            let (rule, layout, export) = refusals(family, dice);
            (refused_rule(&rule, dice), layout, export)
        }
        1 => {
            let (rule, layout, export) = if dice.percent(50) { valid(family, dice) } else { damaged(family, dice) };
            (refused_rule(&rule, dice), layout, export)
        }
        _ => {
            let marks = dice.from_to(180, 199);
            let root = Part::Sequence(vec![Part::Mark(b','); marks]);
            let layout = trees::file(&root, &[], true, dice);
            let row = |dice: &mut Dice| {
                let mut row = b"x,".repeat(dice.of(&[160, marks, marks]).min(marks));
                let length = dice.of(&[0, 4095, 4096, 4097, 4098]);
                row.resize(length.max(row.len()), b'x');
                row
            };
            let rows: Vec<Vec<u8>> = (0..dice.from_to(1, 3)).map(|_| row(dice)).collect();
            let (rule, export) = by_newline(&rows, dice);
            (rule, layout, export)
        }
    }
}

/// Files at the limit of 16,777,216 bytes and one byte over it, also with a rule or a layout that is refused.
pub fn large() -> Vec<Input> {
    let layout = vec![1, 0, 0x20, 0x18, 0x40, 0, 0, 0, 0, 0];
    let input = |rule: &str, layout: &[u8], size: usize, byte: u8| Input {
        kind: "large",
        rule: rule.to_string(),
        family: "ascii".to_string(),
        layout: layout.to_vec(),
        export: vec![byte; size],
    };
    vec![
        input("sample:2:fixed:4096", &layout, 16_777_216, b'a'),
        input("newline", &layout, 16_777_216, b'a'),
        input("sample:3:newline", &layout, 16_777_216, 0x0A),
        input("sample:2:fixed:4096", &layout, 16_777_217, b'a'),
        input("newline", &layout[..5], 16_777_217, b'a'),
        input("fixed:0", &layout[..5], 16_777_217, b'a'),
    ]
}
