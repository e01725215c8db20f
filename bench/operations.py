"""Operations in what callgrind counted: the nearest count from compiled code to the papers' operations of a source text.

Document 000 (section 7.1.2) says that each primitive monitor "performs approximately 13 operations", and prints two in its Figure 7.2. Their update() texts have 15
and 11 operators, with assignments, comparisons, && and || counted in every branch. That fits if an operation is an operator of the source, an assignment included.

Here an operation is an executed instruction that computes or compares, or that stores to memory other than the stack: an assignment to something that is kept.
One that does both, as an addition to memory, is two. Loads, moves between registers and the stack, jumps, calls, returns, push, pop and nop are none. Where there
is a doubt the larger count is taken: setting a register to 0 by xor is a computation, and memory is the stack only by its address from rsp.
"""

import re
from collections import namedtuple

CONDITION = '(?:n?[eosp]|[abgl]e?)'
# of several numbers at once, as eight counts: one instruction is one operation; what only puts numbers in other places is counted too
VECTOR = ('p(?:addu?s?|subu?s?|mull|cmpeq|cmpgt|sll|srl|sra|unpck[lh])[bwdq]{1,3}|pandn?|por|pxor|(?:andn?|x?or)p[sd]|pack[su]s(?:wb|dw)|pshuf(?:[bd]|[lh]w)|shufp[sd]|unpck[lh]p[sd]|'
          'pinsr[bwdq]|pextr[bwdq]|pmovmskb|pmov[sz]x[bwdq]{2}|pblendw|pblendvb')
# an instruction that is in neither list is an error, so that nothing is counted wrongly unseen
COMPUTES = re.compile('add|sub|adc|sbb|inc|dec|neg|i?mul|i?div|and|or|xor|not|sh[lr]d?|sa[lr]|ro[lr]|lea|cmp|test|bt[scr]?|bs[fr]|[lt]zcnt|popcnt|bswap|'
                      'set%s|cmov%s|%s' % (CONDITION, CONDITION, VECTOR))
MOVES = re.compile('mov|movabs|movzx|movsxd?|mov[au]p[sd]|movdq[au]|mov[dq]|movs[sd]|mov[lh]p[sd]|cdqe?|cwde|cqo|push|pop|call|ret|jmp|j%s|nop|endbr64' % CONDITION)
ONLY_READS = re.compile('cmp|test|bt|i?mul|i?div|push|call|jmp|nop') # of these a first operand in memory is not written

Dump = namedtuple('Dump', 'total own')


def read_code(path):
    """The text of the instruction at each address: what `objdump -d -M intel --no-show-raw-insn` printed."""
    with open(path, encoding='utf-8') as f:
        found = (re.match(r'\s*([0-9a-f]+):\s+(.*)$', line) for line in f)
        return {int(m.group(1), 16): m.group(2) for m in found if m}


def read_callers(path):
    """The names of the functions in an object file: what `nm` printed of it."""
    with open(path, encoding='utf-8') as f:
        return {line.split()[-1] for line in f if line.split()[-2] in 'tT'}


def operations_of(text):
    """0, 1 or 2, for one instruction."""
    words = re.sub(r'^(?:(?:cs|data16|bnd|notrack) )*', '', text).split(None, 1)
    mnemonic, operands = words[0], ''.join(words[1:])
    if (mnemonic, operands) == ('xchg', 'ax,ax'): # objdump's name of a nop of two bytes
        return 0
    computes = bool(COMPUTES.fullmatch(mnemonic))
    if not computes and not MOVES.fullmatch(mnemonic):
        raise SystemExit('operations.py: is this an operation? %s' % text)
    stores = re.match(r'[A-Z]+ PTR (?!\[rsp\b)', operands) and not ONLY_READS.fullmatch(mnemonic)
    return computes + bool(stores)


def read_dump(text, callers):
    """A dump's total, and how often each instruction was executed that is not in one of the callers' functions. The dump was made with instructions, and with
    names and addresses written out."""
    own, total, function, callee = {}, 0, None, False
    for line in text.splitlines():
        cost = re.fullmatch(r'0x([0-9a-f]+) \d+ (\d+)', line)
        if line.startswith('fn='):
            function = line[3:]
        elif cost and not callee: # the line after calls= has what the callee cost, which stands with its own instructions
            address, count = int(cost.group(1), 16), int(cost.group(2))
            total += count
            if function not in callers:
                own[address] = own.get(address, 0) + count
        callee = line.startswith('calls=')
    return Dump(total, own)


def operations(text, code, callers):
    """The operations in a dump outside the callers. Everything that was executed has to be in the code, and in the dump's total."""
    dump = read_dump(text, callers)
    if dump.total != int(re.search(r'^totals: (\d+)', text, re.M).group(1)):
        raise SystemExit('operations.py: the instructions of a dump are %d, which is not its total' % dump.total)
    if not all(address in code for address in dump.own):
        raise SystemExit('operations.py: an instruction was executed that is not in the program\'s code')
    return sum(count * operations_of(code[address]) for address, count in dump.own.items())
