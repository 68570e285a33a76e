//! What each function of the archive needs of a handheld's memory: bytes of code, and of stack at its deepest call. Read
//! from the archive's disassembly, as `objdump -dwr -M intel` writes it.

use std::collections::{BTreeMap, BTreeSet, HashMap};
use std::fs;

/// What one call may need, all that it calls with it.
#[derive(Clone, Copy, Debug, Default, Eq, PartialEq)]
pub struct Needs {
    /// Bytes of stack, its own return address among them.
    pub stack: u64,
    /// Bytes of code, each function once.
    pub code: u64,
}

/// By a function's name.
pub type Frames = BTreeMap<String, Needs>;

/// What the exports need.
pub fn read(file: &str) -> Result<Frames, String> {
    let text = fs::read_to_string(file).map_err(|e| format!("{file}: {e}"))?;
    let functions = functions(&text);
    let exports = functions.keys().filter(|name| name.starts_with("rimjhodek_"));
    Ok(exports.map(|name| (name.clone(), needs(&functions, name))).collect())
}

/// A function as its instructions, each at its address.
type Function = BTreeMap<u64, Instruction>;

#[derive(Clone, Debug, Default)]
struct Instruction {
    /// The mnemonic and its operands.
    text: String,
    /// The symbol that a call or a jump goes to by a relocation.
    to: Option<String>,
    /// Bytes up to the next.
    size: u64,
}

/// The functions of a disassembly.
fn functions(text: &str) -> HashMap<String, Function> {
    let mut functions: HashMap<String, Function> = HashMap::new();
    let mut name = String::new();
    for line in text.lines() {
        if let Some(head) = line.strip_suffix(">:") {
            name = head.split('<').next_back().unwrap_or_default().to_string();
        } else if let Some((at, instruction)) = instruction(line, &name) {
            functions.entry(name.clone()).or_default().insert(at, instruction);
        }
    }
    functions.values_mut().for_each(trim);
    functions
}

/// Without what fills up to the next function.
fn trim(function: &mut Function) {
    let fills =
        |text: &str| text.contains("nop") || text.starts_with("int3") || text == "xchg   ax,ax";
    while function.last_entry().is_some_and(|last| fills(&last.get().text)) {
        function.pop_last();
    }
}

/// An instruction of a function and its address: `  5:`, bytes, text, and where there is one a relocation.
fn instruction(line: &str, function: &str) -> Option<(u64, Instruction)> {
    let mut parts = line.trim_start().split('\t');
    let at = u64::from_str_radix(parts.next()?.strip_suffix(':')?, 16).ok()?;
    let size = parts.next()?.split_whitespace().count() as u64;
    let text = parts.next().unwrap_or_default().trim().to_string();
    let relocated = parts.next().filter(|part| part.contains("R_X86_64_"));
    let to = match relocated.and(parts.next()) {
        Some(relocation) => Some(symbol(relocation)),
        None => named(&text).filter(|to| to != function),
    };
    Some((at, Instruction { text, to, size }))
}

/// The symbol of a relocation, without its addend. A function that is not exported is named by its section.
fn symbol(relocation: &str) -> String {
    let end = relocation.rfind(['-', '+']).unwrap_or(relocation.len());
    let name = &relocation[..end];
    name.strip_prefix(".text.").unwrap_or(name).to_string()
}

/// The function at whose start a target lies: `200 <inner>`.
fn named(text: &str) -> Option<String> {
    let (_, name) = text.strip_suffix('>')?.split_once('<')?;
    (!name.contains('+')).then(|| name.to_string())
}

/// What a function needs with all that it calls. Where one calls itself, its own turn is left out.
fn needs(functions: &HashMap<String, Function>, name: &str) -> Needs {
    let mut reached = BTreeSet::new();
    let stack = deepest(functions, name, &mut Vec::new(), &mut reached);
    let size = |name: &String| functions[name].values().map(|at| at.size).sum::<u64>();
    Needs { stack, code: reached.iter().map(size).sum() }
}

/// The return address, the function's own frame, and the deepest of its calls from where it stands.
fn deepest(
    functions: &HashMap<String, Function>,
    name: &str,
    above: &mut Vec<String>,
    reached: &mut BTreeSet<String>,
) -> u64 {
    const RETURN: u64 = 8;
    let Some(function) = functions.get(name) else {
        // Outside of the archive: what it takes is not known here.
        return RETURN;
    };
    if above.iter().any(|of| of == name) {
        return 0;
    }
    reached.insert(name.to_string());
    above.push(name.to_string());
    let mut most = RETURN;
    for (at, depth) in depths(function) {
        let instruction = &function[&at];
        most = most.max(RETURN + depth + below(&instruction.text));
        let target = instruction.to.as_ref().filter(|_| leaves(&instruction.text));
        if let Some(target) = target {
            let called = deepest(functions, target, above, reached);
            // A jump to another function hands its own return address on.
            let own = if is_call(&instruction.text) { RETURN + depth } else { depth };
            most = most.max(own + called);
        }
    }
    above.pop();
    most
}

fn is_call(text: &str) -> bool {
    text.starts_with("call")
}

fn leaves(text: &str) -> bool {
    is_call(text) || text.starts_with('j')
}

/// How far below the stack's end an instruction reaches, as a function that calls none may: `[rsp-0x18]`.
fn below(text: &str) -> u64 {
    let reach = text.split_once("[rsp-0x").and_then(|(_, rest)| rest.split_once(']'));
    reach.and_then(|(by, _)| u64::from_str_radix(by, 16).ok()).unwrap_or(0)
}

/// How deep the stack is at each instruction that is reached, below the return address.
fn depths(function: &Function) -> BTreeMap<u64, u64> {
    let mut depths = BTreeMap::new();
    let mut open: Vec<(u64, u64)> = function.keys().next().map(|at| (*at, 0)).into_iter().collect();
    let mut tables = None;
    loop {
        while let Some((at, depth)) = open.pop() {
            let Some(instruction) = function.get(&at) else {
                continue;
            };
            if depths.contains_key(&at) {
                continue;
            }
            depths.insert(at, depth);
            let after = moved(&instruction.text, depth);
            if is_table(&instruction.text) {
                tables = Some(after);
            }
            open.extend(next(function, at).into_iter().map(|to| (to, after)));
        }
        // What only a jump table leads to is reached from where the table is.
        let missed = function.keys().find(|at| !depths.contains_key(*at));
        match (missed, tables) {
            (Some(at), Some(depth)) => open.push((*at, depth)),
            _ => return depths,
        }
    }
}

/// A jump whose target is in a register or in memory.
fn is_table(text: &str) -> bool {
    text.starts_with("jmp") && text.contains(['*', '['])
}

/// Where control goes from an instruction, within its function.
fn next(function: &Function, at: u64) -> Vec<u64> {
    let instruction = &function[&at];
    let text = instruction.text.as_str();
    let mnemonic = text.split_whitespace().next().unwrap_or_default();
    let target = || text.split_whitespace().nth(1).and_then(|to| u64::from_str_radix(to, 16).ok());
    let falls = at + instruction.size;
    match mnemonic {
        "ret" | "ud2" | "hlt" => vec![],
        "jmp" if instruction.to.is_some() => vec![],
        "jmp" => target().into_iter().collect(),
        _ if mnemonic.starts_with('j') => target().into_iter().chain([falls]).collect(),
        _ => vec![falls],
    }
}

/// The stack's depth after an instruction.
fn moved(text: &str, depth: u64) -> u64 {
    let mut words = text.split([' ', ',']).filter(|word| !word.is_empty());
    let (mnemonic, of, by) = (words.next(), words.next(), words.next());
    let amount = || by.and_then(|by| u64::from_str_radix(by.strip_prefix("0x")?, 16).ok());
    match (mnemonic, of) {
        (Some("push"), _) => depth + 8,
        (Some("pop"), _) => depth.saturating_sub(8),
        (Some("sub"), Some("rsp")) => depth.wrapping_add(signed(amount())),
        (Some("add"), Some("rsp")) => depth.wrapping_sub(signed(amount())),
        _ => depth,
    }
}

/// An immediate, which the disassembler writes as the 64 bits that it means.
fn signed(amount: Option<u64>) -> u64 {
    amount.expect("the stack moves by a constant")
}

#[cfg(test)]
mod tests {
    use super::*;

    const TEXT: &str = "
0000000000000000 <rimjhodek_outer>:
   0:\t53 \tpush   rbx
   1:\t48 83 ec 20 \tsub    rsp,0x20
   5:\te8 00 00 00 00 \tcall   a <rimjhodek_outer+0xa>\t6: R_X86_64_PLT32\t.text.inner-0x4
   a:\t74 06 \tje     12 <rimjhodek_outer+0x12>
   c:\t48 83 c4 20 \tadd    rsp,0x20
  10:\t5b \tpop    rbx
  11:\tc3 \tret
  12:\t48 83 c4 20 \tadd    rsp,0x20
  16:\t5b \tpop    rbx
  17:\te9 00 00 00 00 \tjmp    100 <large>
  1c:\t90 \tnop

0000000000000000 <inner>:
   0:\t50 \tpush   rax
   1:\t48 89 44 24 e8 \tmov    QWORD PTR [rsp-0x18],rax
   6:\t58 \tpop    rax
   7:\tc3 \tret

0000000000000000 <large>:
   0:\t48 81 ec 00 01 00 00 \tsub    rsp,0x100
   7:\t48 81 c4 00 01 00 00 \tadd    rsp,0x100
   e:\tc3 \tret
";

    #[test]
    fn calls_and_tail_calls() {
        let functions = functions(TEXT);
        assert_eq!(needs(&functions, "inner"), Needs { stack: 40, code: 8 });
        assert_eq!(needs(&functions, "large"), Needs { stack: 264, code: 15 });
        // Its own 8 + 40, and below that the 40 of `inner`; or the 264 of `large` in its place.
        assert_eq!(needs(&functions, "rimjhodek_outer"), Needs { stack: 264, code: 28 + 8 + 15 });
    }

    #[test]
    fn a_jump_table() {
        let text = "
0000000000000000 <f>:
   0:\t50 \tpush   rax
   1:\tff e0 \tjmp    QWORD PTR [rax*8+0x0]
   3:\t51 \tpush   rcx
   4:\t59 \tpop    rcx
   5:\t58 \tpop    rax
   6:\tc3 \tret
";
        assert_eq!(needs(&functions(text), "f"), Needs { stack: 24, code: 7 });
    }
}
