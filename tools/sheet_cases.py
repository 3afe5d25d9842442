#!/usr/bin/env python3
"""A second reader of sheets, written apart from the proved one, and the cases that both must answer alike.

tools/sheet_cases.py    writes crates/sheet_cases/stdin and stdout anew

The cases are good sheets and damaged ones: cut at each byte, with a byte dropped, doubled or changed, and with the
numbers, words and counts at and past their limits. The choice is fixed by a seed.
"""
import pathlib, random, re

class Fault(Exception):
    def __init__(self, number, place): self.number, self.place = number, place

def read(sheet: bytes) -> str:
    if len(sheet) > 2048: raise Fault(1, 2048)
    at = 0
    def due():
        raise Fault(2, at) if at < len(sheet) else Fault(4, len(sheet))
    def word():
        nonlocal at
        m = re.compile(rb'[^ \n]+').match(sheet, at)
        if not m: due()
        start, at = at, m.end()
        return start, m.group()
    def sep(c):
        nonlocal at
        if sheet[at:at + 1] != c: due()
        at += 1
    def key(*wanted):
        start, w = word()
        if w not in wanted: raise Fault(2, start)
        return w
    def number(low, high):
        start, w = word()
        if not re.fullmatch(rb'0|[1-9][0-9]*', w): raise Fault(2, start)
        if not low <= int(w) <= high: raise Fault(3, start)
        return int(w)
    key(b'docket'); sep(b' '); docket = number(1, 9999); sep(b'\n')
    if key(b'handshake', b'tokens') == b'handshake':
        sep(b' '); i = number(1, 3); sep(b' '); r = number(1, 3); sep(b' '); m = number(1, 4); sep(b' ')
        lowe = key(b'original', b'lowe') == b'lowe'; sep(b'\n')
        said = f'handshake {i} {r} {m} {str(lowe).lower()}'
    else:
        sep(b'\n'); names, lines = [], []
        while True:
            start, w = word()
            if w == b'agent':
                if len(lines) == 4: raise Fault(3, start)
                acts = []; lines.append(acts); sep(b' ')
                while True:
                    start, w = word()
                    if not re.fullmatch(rb'[-+?!][a-z]{1,8}', w): raise Fault(2, start)
                    if len(acts) == 8: raise Fault(3, start)
                    name = w[1:]
                    if name not in names:
                        if len(names) == 16: raise Fault(3, start)
                        names.append(name)
                    acts.append(chr(w[0]) + str(names.index(name)))
                    if sheet[at:at + 1] != b' ': break
                    at += 1
                sep(b'\n')
            elif w == b'breach' and lines: break
            else: raise Fault(2, start)
        sep(b' '); start, w = word()
        if w not in names: raise Fault(2, start)
        breach = names.index(w); sep(b'\n')
        said = 'tokens' + ''.join(' agent ' + ' '.join(a) for a in lines) + f' breach {breach}'
    if at < len(sheet): raise Fault(2, at)
    return f'docket {docket} {said}'

def answer(sheet):
    try: return read(sheet)
    except Fault as f: return f'fault {f.number} at {f.place}'

def cases():
    rnd = random.Random(7)
    relay = b'docket 7\ntokens\nagent +a -b\nagent -a +c\nbreach c\n'
    shake = b'docket 8\nhandshake 1 2 3 lowe\n'
    names = [b'a', b'bb', b'agent', b'lowe', b'breach', b'original', b'tokens', b'docket', b'abcdefgh'] + [bytes([c]) for c in range(98, 122)]
    yield b''
    for good in (relay, shake, b'docket 9999\nhandshake 3 3 4 original\n'):
        yield good
        for k in range(len(good)): yield good[:k]
        for k in range(len(good)):
            yield good[:k] + good[k + 1:]
            yield good[:k] + good[k:k + 1] + good[k:]
            yield good[:k] + bytes([rnd.choice(b' \n0179az+-?!\t\r')]) + good[k + 1:]
        for more in (b'\n', b' ', b'x', b'docket 1\n'): yield good + more
    for n in (b'0', b'00', b'01', b'1', b'10', b'9999', b'10000', b'99999', b'65537', b'18446744073709551617', b'+7', b'7x', b'x', b'-1', b'7\xc3\xa9'):
        yield b'docket ' + n + b'\nhandshake 1 1 1 lowe\n'
        for k in range(3):
            parts = [b'1', b'1', b'1']; parts[k] = n
            yield b'docket 5\nhandshake ' + b' '.join(parts) + b' original\n'
    for w in (b'Lowe', b'low', b'lowes', b'original', b'handshake', b'', b'agent'): yield b'docket 5\nhandshake 2 1 4 ' + w + b'\n'
    for w in (b'Tokens', b'token', b'tokenss', b'docket', b'breach', b'agent'): yield b'docket 5\n' + w + b'\nagent +a\nbreach a\n'
    def store(lines, breach): return b'docket 42\ntokens\n' + b''.join(b'agent ' + b' '.join(l) + b'\n' for l in lines) + b'breach ' + breach + b'\n'
    letters = [bytes([c]) for c in range(97, 97 + 20)]
    for n in (1, 4, 5): yield store([[b'+a']] * n, b'a')
    for n in (1, 8, 9): yield store([[b'+a'] * n], b'a')
    for n in (15, 16, 17): yield store([[b'+' + x for x in letters[k:min(k + 8, n)]] for k in range(0, n, 8)], b'a')
    for b in (b'b', b'abcdefghi', b'A', b'7', b'+a', b'', b'agent', b'handshake'): yield store([[b'+a', b'-agent']], b); yield store([[b'!a']], b)
    for i in (b'+', b'a', b'*a', b'+A', b'+abcdefgh', b'+abcdefghi', b'++a', b'+a1', b'?a', b'!a', b'+7', b'7'): yield store([[b'+a', i]], b'a'); yield store([[i]], b'a')
    yield store([], b'a'); yield b'docket 42\ntokens\nagent\nbreach a\n'; yield b'docket 42\ntokens\nagent \nbreach a\n'; yield b'docket 42\ntokens\nagent +a '
    for n in (2047, 2048, 2049): yield (b'docket 1\nhandshake 1 1 1 ' + b'x' * 4000)[:n]
    for _ in range(300):
        sheet = store([[rnd.choice([b'+', b'-', b'?', b'!']) + rnd.choice(names) for _ in range(rnd.randint(1, 9))] for _ in range(rnd.randint(1, 5))], rnd.choice(names))
        yield sheet
        k = rnd.randrange(len(sheet)); yield sheet[:k] + bytes([rnd.choice(b' \n+az~'.replace(b'~', b'0'))]) + sheet[k + 1:]

if __name__ == '__main__':
    here = pathlib.Path(__file__).resolve().parent.parent / 'crates' / 'sheet_cases'
    all_ = list(cases())
    here.joinpath('stdin').write_bytes(b''.join(c + b'~' for c in all_))
    here.joinpath('stdout').write_text(''.join(answer(c) + '\n' for c in all_))
    print(len(all_), 'cases')
