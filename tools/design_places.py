#!/usr/bin/env python3
"""Counts the places in crates/*/src that docs/DESIGN-PASS.md speaks of, point by point.

tools/design_places.py [COMMIT] [--list POINT]: in the working tree or at COMMIT; --list prints each place of a point, as 1a or 3.
A place is a line that matches the pattern named below, comments aside.
"""
import re
import subprocess
import sys

PATTERNS = [
    ('1a', 'own enums', r'^pub enum \w+'),
    ('1b', 'a flag as a field of a struct', r'^    pub \w+: bool,'),
    ('1c', 'a refusal by its number', r'(Refused\(\d|packed\(\d|refused\(\d|refused: \d|refused != 0)'),
    ('1d', 'a question whether an answer is accepted', r'(?<!fn )\b(is_accepted|accepted)\('),
    ('1e', 'a function that answers a number which says which case holds or that none does',
     r'^pub fn (unfit|outside|found|array_unfit|array_outside|first_unfit|one_of_nine|misfit|lacking_field|rises|digit|front|failed_at|whole|lengths_code)\('),
    ('2a', 'structs of a value and the State that is left', r'^pub struct (Valued|\w+Left)\b'),
    ('2b', 'functions that set one field of State where a test holds', r'^pub fn set_dm\d+\('),
    ('2c', 'cosines of a phase that take the one of the phase 0', r'^pub fn (annual_at|semiannual_at|local|ut|ut_with_long|long_phase)\('),
    ('2d', 'terms that are 0 where their switch is off', r'^pub fn (t6|t7|t13|t6s|t7s|t13s)\('),
    ('2e', 'functions for each species', r'^pub fn (\w+_)?(n2|helium|oxygen|o2|argon|hydrogen|nitrogen)(_\w+)?\('),
    ('2f', 'functions for each change of a station', r'^pub fn (change_(sec|lst|g_long|fluxes|move)|to_(sec|lst|g_long|fluxes|move)|with_(sec|lst|g_long|fluxes)|changed|changed_sec|fill|fill_sec)\('),
    ('2g', 'functions for one coefficient set', r'^pub fn (common|activity0|activity1)\('),
    ('2h', 'functions for one number of nodes', r'^pub fn (layer4|layer5|floored5|densm54|read_at|integral|value)\('),
    ('2i', 'copies of numbers into a slice or an array', r'^(pub )?fn (put|put_row|put_if|switch_row|row_in|row_from|switches_of)\('),
    ('2j', 'a function that only hands on to one of the same name', r'^pub fn (exp|log|sin|cos|sqrt)\('),
    ('2k', 'the rules of pow, with and without the logarithm', r'^pub fn (rest|rest_with|ordered|pow_with)\('),
    ('3', 'loops that count by hand', r'^\s*(while|loop)\b'),
    ('4', 'equality, conversion and copying written by hand',
     r'^(pub )?fn (agree|same_need|same_number|both_or_neither|is_one|above_zero|to_i32|whole_number|year_of|doy_of|switch_of|main_in|one_in|mark|mark_at|one_if|distance|apart|number|place|ending_number|hex|decimal|show|three)\('),
    ('5a', 'contracts that ask for Shared v', r'\bShared v\b'),
    ('5b', 'contracts that ask for Logged', r'\bLogged \w'),
    ('5c', 'contracts that ask for the spine or the place of a shape', r'≡ (spine_at|place_at) h'),
    ('5d', 'contracts that ask for the length of a season', r'length s\.(now|old) ≡ 156'),
    ('5e', 'contracts that ask for the length of a coefficient set', r'(length p\.now ≡ 150|100 ≤ length p\.now)'),
    ('5f', 'contracts that ask for the lengths of a station', r'length (whole|numbers)\.(now|old) ≡ (27|259|234)'),
    ('5g', 'parameters of gravity that travel together', r'gsurf: f64, re: f64|^\s+gsurf: f64,$'),
    ('6', 'buffers with a length beside them, as arrays of ten with a count n', r'\bn: usize\b'),
    ('7', 'a match on which coefficient set to take, a number for which step', r'^\s+(\d+|_) => \{|\bk: usize\b'),
]


def sources(commit):
    """(file, lines) of each source file."""
    if commit:
        names = subprocess.run(['git', 'ls-tree', '-r', '--name-only', commit, 'crates'], capture_output=True, text=True, check=True).stdout.split()
    else:
        names = subprocess.run(['git', 'ls-files', 'crates'], capture_output=True, text=True, check=True).stdout.split()
    for name in sorted(n for n in names if re.match(r'crates/\w+/src/.*\.rt$', n)):
        if commit:
            text = subprocess.run(['git', 'show', f'{commit}:{name}'], capture_output=True, text=True, check=True).stdout
        else:
            text = open(name, encoding='utf-8').read()
        yield name, text.split('\n')


def main():
    arguments = sys.argv[1:]
    wanted = None
    if '--list' in arguments:
        at = arguments.index('--list')
        wanted = arguments[at + 1]
        del arguments[at:at + 2]
    places = {point: [] for point, _, _ in PATTERNS}
    for name, lines in sources(arguments[0] if arguments else None):
        for number, line in enumerate(lines, 1):
            if line.lstrip().startswith('//') or line.startswith('ghost use'):
                continue
            for point, _, pattern in PATTERNS:
                if re.search(pattern, line):
                    places[point].append(f'{name}:{number}: {line.strip()}')
    for point, meaning, _ in PATTERNS:
        if wanted is None:
            print(f'{point:3} {len(places[point]):4}  {meaning}')
        elif wanted == point:
            print('\n'.join(places[point]))


main()
