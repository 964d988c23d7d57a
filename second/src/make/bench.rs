//! The two sources that are assembled against the clock (docs/COMPARED.md, "Speed"): 1,500 lines
//! and about 30,000 bytes each, one with few labels that are used often, one with many.

use super::draw;
use super::random::Random;
use crate::isa::{opcode, Opcode, Operand, Place};
use crate::machine::REGISTER_NAMES;

/// Lines of each source, and the bytes up to which comments are added.
pub const LINES: usize = 1_500;
const BYTES: usize = 30_500;

/// How often labels are used in all.
const USES: usize = 1_500;

/// First and last parts of names, 4 to 14 letters together.
const FIRST: [&str; 64] = [
    "abre", "ajuste", "base", "borde", "bucle", "busca", "cadena", "campo", "cierra", "copia",
    "cuenta", "dato", "divide", "doble", "entrada", "error", "escala", "espera", "fila", "final",
    "grupo", "guarda", "hasta", "hoja", "igual", "indice", "inicio", "junta", "lado", "lee",
    "letra", "limite", "marca", "mayor", "menor", "mezcla", "mueve", "nivel", "nodo", "numero",
    "orden", "otra", "pagina", "paso", "pila", "primo", "puntero", "queda", "resto", "rutina",
    "salto", "sigue", "suma", "tabla", "texto", "total", "ultimo", "valor", "vector", "vuelta",
    "xor", "yema", "zona", "Menu",
];
const LAST: [&str; 18] = [
    "",
    "A",
    "B",
    "C",
    "X",
    "Fin",
    "Dos",
    "Sig",
    "Max",
    "Min",
    "Tmp",
    "Uno",
    "Alta",
    "Baja",
    "Local",
    "Extra",
    "Derecha",
    "Izquierda",
];

/// Comments, as a person would write them.
pub const COMMENTS: [&str; 12] = [
    "siguiente",
    "no cabe",
    "guarda A",
    "hasta el final",
    "contador",
    "ver tabla",
    "signo",
    "vuelve",
    "primer dato",
    "suma parcial",
    "otra vuelta",
    "fin",
];

/// A source with so many labels.
pub fn source(labels: usize) -> String {
    let mut random = Random::new(labels as u64);
    let names = names(&mut random, labels);
    let mut pool = uses(&mut random, &names, USES / labels);
    let mut lines: Vec<String> = Vec::new();
    let mut written = 0;
    while lines.len() + 1 < LINES {
        let mut line = String::new();
        // labels are spread evenly over the lines
        if written * (LINES - 1) < names.len() * (lines.len() + 1) && written < names.len() {
            line = format!("{}: ", names[written]);
            written += 1;
        }
        let statement = match lines.len() {
            600 => "ORG 5000".to_string(),
            1_100 => "ORG 0x2000".to_string(),
            _ => statement(&mut random, &mut pool, !line.is_empty()),
        };
        lines.push(line + &statement);
    }
    lines.push("END".to_string());
    with_comments(&mut random, &mut lines);
    lines.concat()
}

/// Names in drawn order, the first ones with different first letters.
pub fn names(random: &mut Random, count: usize) -> Vec<String> {
    let all =
        FIRST.iter().flat_map(|first| LAST.iter().map(move |last| format!("{}{}", first, last)));
    let mut left: Vec<String> = all.filter(|name| (4..=14).contains(&name.len())).collect();
    let mut names: Vec<String> = Vec::new();
    while names.len() < count && !left.is_empty() {
        // mostly the shortest of four, so that 500 fit
        let draws = if random.one_in(12) { 1 } else { 4 };
        let drawn = (0..draws).map(|_| random.below(left.len()));
        let at = drawn.min_by_key(|at| left[*at].len()).unwrap_or(0);
        let name = left.swap_remove(at);
        let fresh = names.iter().all(|other| other.as_bytes()[0] != name.as_bytes()[0]);
        if fresh || names.len() >= 20 {
            names.push(name);
        } else {
            left.push(name);
        }
    }
    names
}

/// The names to be used, each so many times, in drawn order; the first is the last here.
pub fn uses(random: &mut Random, names: &[String], times: usize) -> Vec<String> {
    (0..times).flat_map(|_| in_drawn_order(random, names.to_vec())).collect()
}

pub fn in_drawn_order(random: &mut Random, mut left: Vec<String>) -> Vec<String> {
    let mut drawn = Vec::new();
    while !left.is_empty() {
        let at = random.below(left.len());
        drawn.push(left.swap_remove(at));
    }
    drawn
}

/// A statement, or nothing but a comment or a label's line.
fn statement(random: &mut Random, pool: &mut Vec<String>, labelled: bool) -> String {
    match random.below(40) {
        0 if labelled => String::new(),
        0 | 1 if !labelled => format!("; {}", random.text(&COMMENTS)),
        2 if labelled => {
            format!("EQU {}*{}+{}", random.below(90), random.below(9), random.below(99))
        }
        3 if labelled => format!("RES {}", random.between(1, 6)),
        2..=5 => data(random),
        _ => instruction(random, pool),
    }
}

pub fn data(random: &mut Random) -> String {
    let items: Vec<String> = (0..random.between(1, 4))
        .map(|_| match random.below(5) {
            0 => format!("\"{}\"", random.text(&["si", "no", "hola\\n", "Total: ", "fin.", "?"])),
            1 => format!("0x{:X}", random.below(65_536)),
            2 => format!("-{}", random.between(1, 999)),
            _ => random.below(1_000).to_string(),
        })
        .collect();
    format!("DATA {}", items.join(","))
}

/// Every opcode, the common ones more often.
pub fn instruction(random: &mut Random, pool: &mut Vec<String>) -> String {
    let opcode = match random.below(20) {
        0..=3 => Opcode::Move,
        4..=8 => opcode::ALL[random.between(5, 9)],
        9 | 10 => *random.pick(&[Opcode::Cmp, Opcode::And, Opcode::Or, Opcode::Xor]),
        11..=14 => opcode::ALL[random.between(18, 31)],
        _ => *random.pick(&opcode::ALL),
    };
    let (first, second) = opcode.places();
    let mut text = opcode.name().to_string();
    if first != Place::Empty {
        text.push(' ');
        text.push_str(&operand(random, first, pool));
    }
    if second != Place::Empty {
        text.push(',');
        text.push_str(&operand(random, second, pool));
    }
    text
}

/// An operand of any kind that its place allows, nine in ten with a label where it can have one.
fn operand(random: &mut Random, place: Place, pool: &mut Vec<String>) -> String {
    let mut kind = draw::allowed_operand(random, place, 0);
    if kind.kind() >= 4 && random.one_in(2) {
        kind = draw::allowed_operand(random, place, 0);
    }
    let mut value = || match random.below(10) {
        0 => random.below(300).to_string(),
        _ => pool.pop().unwrap_or_else(|| "0x7F".to_string()),
    };
    match (kind, around_value(&kind)) {
        (_, Some((before, behind))) => format!("{}{}{}", before, value(), behind),
        (Operand::Register(_), _) => format!(".{}", random.text(&REGISTER_NAMES)),
        (Operand::Indirect(_), _) => format!("[.{}]", random.text(&REGISTER_NAMES)),
        _ => String::new(),
    }
}

/// What is written before and behind an operand's value; nothing where it has none.
pub fn around_value(operand: &Operand) -> Option<(&'static str, &'static str)> {
    match operand {
        Operand::Immediate(_) => Some(("#", "")),
        Operand::Memory(_) => Some(("/", "")),
        Operand::Relative(_) => Some(("$", "")),
        Operand::IndexedIx(_) => Some(("#", "[.IX]")),
        Operand::IndexedIy(_) => Some(("#", "[.IY]")),
        Operand::IndexedSp(_) => Some(("#", "[.SP]")),
        Operand::Absent | Operand::Register(_) | Operand::Indirect(_) => None,
    }
}

/// Line ends, and comments on drawn lines until there are bytes enough.
fn with_comments(random: &mut Random, lines: &mut [String]) {
    let mut bytes: usize = lines.iter().map(|line| line.len() + 1).sum();
    while bytes < BYTES {
        let at = random.below(lines.len() - 1);
        if !lines[at].contains(';') {
            let comment = format!(" ; {}", random.text(&COMMENTS));
            bytes += comment.len();
            lines[at].push_str(&comment);
        }
    }
    for line in lines {
        line.push('\n');
    }
}
