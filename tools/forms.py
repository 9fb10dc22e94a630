#!/usr/bin/env python3
# Counts the places in src/ that docs/DESIGN-PASS.md speaks of, by pattern: `tools/forms.py [-v] [COMMIT]` (the working tree by default).
import re, subprocess, sys

BODY = r'[^;{}]*'
POINTS = [
    (1, 'a refusal as Some: a function that answers `Option<Ruling>`', r'->\s*Option<Ruling>'),
    (1, 'a flag that tells whether something was done: `&mut` in, `bool` out', r'fn \w+(?:<[^{;]*?>)?\([^{;)]*&mut[^{;)]*\) -> bool'),
    (1, 'a refusal of a path told by `bool`', r'fn check_path\([^)]*\) -> bool'),
    (1, 'a number in place of "none"', r'u32::MAX|-> usize\n\s+ensures value \{ result ≡ first_fit'),
    (1, 'an enum with a variant for a failure among those for answers', r'enum \w+ \{[^}]*\b(?:Bad|Fail|Failed|Error)\('),
    (1, 'a flag beside the value of which it tells', r'\bused: bool,\n|words: \[u64; 256\],\n\s+used'),
    (1, 'numbers for kinds in the types of calls', r'pub kind: u32|\bcode: u32,'),
    (1, 'an enum that can be copied and neither compared nor printed', r'#\[derive\(Clone, Copy\)\]\n(?:pub(?:\(crate\))? )?enum'),
    (2, 'functions that differ in a width of integers', r'fn \w*_(?:u8|u16|u32|u64|i32)\b|fn (?:u16|u32)_at\b'),
    (2, 'functions that differ in a home of numbers', r'fn (?:read|get|set)_(?:field|row|item)\b|fn (?:get_)?(?:field|row|item)_action\b'),
    (2, 'functions that differ in a noun, a mark or a layer', r'pub fn (?:data_words|pointers|rows|elements|words)\(count|fn (?:single|double)_far\(|fn with_(?:none|one|two|three)\b'),
    (2, 'a function that stands in two crates', r'fn (?:place_word|byte_at|object_words|larger)\('),
    (2, 'a type that stands in two crates', r'pub (?:struct Step|enum (?:Number|NumberKind|Kind|Value)) \{'),
    (2, 'calls as a whole that differ in one step', r'fn (?:perform|perform_number|root_and_make|root_and_set)<'),
    (2, 'steps or sizes read alike', r'fn (?:pointer|element)_step\(|fn (?:struct|grow_struct|grow_rows)_action\('),
    (3, '`while` and `loop`', r'(?<!\w)(?:while\b[^/\n]*|loop) \{'),
    (3, '`for` over the numbers of a slice or an array, which the body indexes', r'for (\w+) in 0\.\.[^{]*\{(?:(?!\n    \}|\n        \}\n    \}).)*?\[(?:\w+ \+ )?\1\]'),
    (3, '`for` over numbers by which an interface or a message counts', r'for (\w+) in 0\.\.[^{]*\{(?!(?:(?!\n    \}|\n        \}\n    \}).)*?\[(?:\w+ \+ )?\1\])'),
    (3, 'a number counted beside an iterator', r'number = number\.saturating_add|n = n\.saturating_add'),
    (4, 'a match that maps an Option or a Result', r'Some\(\w+\) => Some\(|None => None,|Ok\(\w+\) => Ok\(|Ok\(\(\)\) => Ok\(\(\)\)|Err\((?:\w+|_|Refusal \{[^}]*\})\) => Err\(|None => Err\(|Some\(\w+\) => Err\('),
    (4, 'a conversion as a function of its own', r'fn (?:from_code|code|name|read_kind|number_fault|path_fault|text_fault|typed_with_bytes)\('),
    (4, 'the larger of two, equality by numbers, copies field by field', r'if a < b \{ b \} else \{ a \}|\.code\(\) == |row: self\.row,'),
    (5, 'the three meanings of a source, written out', r'[ST]\.Reading\.segments [ST]\.Source\.offers [ST]\.Source\.first'),
    (5, 'offers, first offers and fault unchanged, written out', r'S\.Source\.(?:offers|first|fault) [^{}]*≡ S\.Source\.(?:offers|first|fault) '),
    (5, 'a slot or an object as two loose numbers', r'\b(?:g: usize,\s+w: usize|s: usize,\s+(?:t|q): usize|k: usize,\s+p: usize)'),
    (5, 'an object as two parameters', r'(?:old|landing): Landing,\s+shape: Shape'),
    (5, 'the premise of a sound message, written out', r'\(\(x : ℕ\) → a x ≤ 2 \^ 29\) → Shows'),
    (5, 'a number that is read back, written out', r'IfOk result \(λ e\. E\.PrimitiveElement\.value'),
    (5, 'sections as two numbers', r'data: u16,\s+pointers: u16'),
    (6, 'a buffer of fixed length in a struct', r'^    \w+: \[.*; \d+\],'),
    (7, 'a step to run chosen by a value or a macro', r'macro_rules!|enum Step \{|with_none\('),
]

def files(commit):
    if commit is None:
        names = subprocess.run(['git', 'ls-files', 'crates/*/src/*.rt'], capture_output=True, text=True, check=True).stdout.split()
        for n in names:
            try: yield n, open(n, encoding='utf-8').read()
            except FileNotFoundError: pass
    else:
        names = subprocess.run(['git', 'ls-tree', '-r', '--name-only', commit, 'crates/'], capture_output=True, text=True, check=True).stdout.split()
        for n in names:
            if '/src/' in n and n.endswith('.rt'):
                yield n, subprocess.run(['git', 'show', f'{commit}:{n}'], capture_output=True, text=True, check=True).stdout

def main():
    args = [a for a in sys.argv[1:] if a != '-v']
    verbose = '-v' in sys.argv[1:]
    texts = list(files(args[0] if args else None))
    for point, what, pattern in POINTS:
        found = []
        for name, text in texts:
            for m in re.finditer(pattern, text, re.M | re.S):
                found.append(f'{name}:{text.count(chr(10), 0, m.start()) + 1}')
        print(f'{point}  {len(found):4}  {what}')
        if verbose:
            for f in found: print('        ' + f)

main()
