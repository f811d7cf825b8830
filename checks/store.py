"""What checks of the built program share: where it is, what a script's lines may be answered, and what stands on a disk.

The answers are those of docs/LANGUAGE.md, and the disks those of docs/FORMATS.md; both are read here after those pages alone.
"""
import os
import re
import struct
import subprocess
import sys

ROOT = os.path.dirname(os.path.dirname(os.path.abspath(__file__)))


class Checks:
    """Says of each check whether it holds, one line each."""

    def __init__(self, title):
        self.title = title
        self.made = 0
        self.held = 0

    def check(self, name, why_not):
        """Counts a check; `why_not` is what is wrong, or nothing."""
        self.made += 1
        if why_not is None:
            self.held += 1
            print(f'holds: {name}', flush=True)
        else:
            print(f'does not hold: {name}: {why_not}', flush=True)

    def skip(self, name, why):
        """Says of a check that it was not made, and why."""
        print(f'skipped: {name}: {why}', flush=True)

    def end(self):
        """Says whether all hold, and ends with status 0 only then."""
        if self.held == self.made and self.made:
            print(f'{self.title}: all {self.made} checks hold')
            sys.exit(0)
        print(f'{self.title}: {self.made - self.held} of {self.made} checks do not hold')
        sys.exit(1)


def built_program(words):
    """The program: the first of these words, or what the launcher builds."""
    if words:
        return os.path.abspath(words[0])
    launcher = os.path.join(ROOT, 'casreg')
    if subprocess.run([launcher, 'script'], stdin=subprocess.DEVNULL).returncode != 0:
        sys.exit('the program is not built')
    return os.path.join(ROOT, 'crates', 'casreg', 'out', 'casreg')


# ---- answers


class Wrong(Exception):
    """What was written or kept is not what may be."""


def state_text(state):
    """A state as answers have it: nothing, or a version and a body."""
    if state is None:
        return 'empty'
    version, body = state
    return f'v{version} num {body}' if isinstance(body, int) else f'v{version} text {body}'


def put(state, body):
    return (0 if state is None else state[0] + 1, body)


def outcome(words, state):
    """The state that a change of these words leaves of this one, and what stands behind the answer."""
    name, rest = words[1], words[3:]
    if name == 'get':
        return state, ''
    if name == 'set':
        return put(state, rest[0]), ''
    if name == 'num':
        return put(state, int(rest[0])), ''
    if name == 'init':
        return (put(state, int(rest[0])), '') if state is None else (state, ' no clause')
    if name == 'add':
        if state is None:
            return put(state, int(rest[0])), ''
        if not isinstance(state[1], int) or not -2**63 <= state[1] + int(rest[0]) < 2**63:
            return state, ' unfit'
        return put(state, state[1] + int(rest[0])), ''
    if name in ('cas', 'casnum', 'delv'):
        if state is None or state[0] != int(rest[0]):
            return state, ' no clause'
        if name == 'delv':
            return None, ''
        return put(state, int(rest[1]) if name == 'casnum' else rest[1]), ''
    if name == 'del':
        return None, ''
    raise ValueError(f'no change: {words}')


def is_change(words):
    return words[0].isdigit()


BALLOT = re.compile(r'(\d+)\.(\d+)')

# what is answered where nothing was proposed, and where it was and may stand
REFUSED = re.compile(
    r'conflict \d+\.\d+|short \d+ \d+|full \d+|crashed|down|vault fault|record full|no memory|aged \d+|moved \d+')
PROPOSED = re.compile(
    r'unsettled (met \d+\.\d+|short \d+ \d+|full \d+|crashed|aged \d+|moved \d+)|no memory proposed')
TOLD = {
    'collect': re.compile(
        r'op: (collected \S+ at \d+\.\d+ removed \d+ kept \d+|not empty v\d+|absent \d+|busy \d+|proposer down \d+)'),
    'join': re.compile(r'op: (joined \d+ era \d+ rescanned \d+|already in|id used|too many|busy \d+|proposer down \d+)'),
    'leave': re.compile(r'op: (left \d+ era \d+ rescanned \d+|not in|last|busy \d+|proposer down \d+)'),
    'probe': re.compile(r'op: probe \S+( \d+=(\?|none|\d+\.\d+/\d+))+'),
}
EVENT = re.compile(r'ok|none|fault|foreign \d+|record full|no memory')


class Registers:
    """Which states each register may have, by the answers of a script so far: a change that was answered done stands once and is the last,
    one that was refused never stands, and one that may stand does so once or never."""

    def __init__(self):
        self.may_be = {}

    def take(self, line, answer):
        """Takes the answer to a line. It is wrong where no state that may be is answered so."""
        words = line.split()
        if is_change(words):
            self.take_change(words, answer)
        elif words[0] == 'op':
            told = answer.removeprefix('op: ')
            if not (TOLD[words[1]].fullmatch(answer) or (
                    answer.startswith('op: ') and (REFUSED.fullmatch(told) or PROPOSED.fullmatch(told)))):
                raise Wrong(f'`{line}` is answered `{answer}`')
        elif not EVENT.fullmatch(answer):
            raise Wrong(f'`{line}` is answered `{answer}`')

    def take_change(self, words, answer):
        caller, key = words[0], words[2]
        states = self.may_be.setdefault(key, {None})
        if not answer.startswith(f'{caller}: '):
            raise Wrong(f'`{" ".join(words)}` is answered `{answer}`')
        told = answer[len(caller) + 2:]
        after = [outcome(words, state) for state in states]
        if REFUSED.fullmatch(told):
            return
        if PROPOSED.fullmatch(told):
            states.update(state for state, _ in after)
            return
        for state, behind in after:
            front = f'done {state_text(state)} at '
            if told.startswith(front) and told.endswith(behind):
                if BALLOT.fullmatch(told[len(front):len(told) - len(behind)]):
                    self.may_be[key] = {state}
                    return
        raise Wrong(f'`{" ".join(words)}` is answered `{answer}`, and the register may be {states}')


# ---- disks


class Foreign(Exception):
    """The bytes are no disk of the format."""


def frame_of(disk, at, size):
    """The frame at this place: its number and payload where it is open, or nothing."""
    if at + size > len(disk):
        raise Foreign(f'the disk ends within the frame at {at}')
    gate, number = disk[at], disk[at + 1]
    if gate != 1:
        return None
    (length,) = struct.unpack_from('>H', disk, at + 2)
    if number > 2:
        raise Foreign(f'the number at {at + 1}')
    if not 1 <= length <= size - 4:
        raise Foreign(f'the length at {at + 2}')
    if any(disk[at + 4 + length:at + size]):
        raise Foreign(f'bytes behind the payload of the frame at {at}')
    return number, bytes(disk[at + 4:at + 4 + length])


def payload_of(disk, at, size):
    """The payload of the cell of two frames of this size, or nothing where it is blank."""
    first, second = frame_of(disk, at, size), frame_of(disk, at + size, size)
    if first is None or second is None:
        found = first or second
        return found[1] if found else None
    if first[0] == second[0]:
        raise Foreign(f'two open frames of one number at {at}')
    return second[1] if second[0] == (first[0] + 1) % 3 else first[1]


class Reader:
    """Reads parts from the front of a payload."""

    def __init__(self, payload):
        self.payload = payload
        self.at = 0

    def take(self, form):
        size = struct.calcsize('>' + form)
        if self.at + size > len(self.payload):
            raise Foreign('a payload that ends too early')
        value = struct.unpack_from('>' + form, self.payload, self.at)
        self.at += size
        return value[0]

    def bytes(self, count):
        return self.take(f'{count}s')

    def ballot(self):
        counter, proposer = self.take('Q'), self.take('B')
        if counter > 2**48 or proposer > 16:
            raise Foreign('a ballot out of its range')
        return counter, proposer

    def key(self):
        word = self.bytes(self.take('B'))
        if not 1 <= len(word) <= 64 or any(not 0x21 <= byte <= 0x7e for byte in word):
            raise Foreign('a key')
        return word.decode()

    def state(self):
        kind = self.take('B')
        if kind == 0:
            return None
        version = self.take('Q')
        if kind == 1:
            return version, self.take('q')
        length = self.take('H')
        if kind != 2 or length > 4000:
            raise Foreign('a state')
        return version, self.bytes(length).decode('latin-1')

    def end(self):
        if self.at != len(self.payload):
            raise Foreign('a payload that goes on')


def read_shelf(disk):
    """The slots of an acceptor's disk: of each key its promise, and the ballot, era and state that it accepted, or nothing."""
    head = payload_of(disk, 0, 512)
    if head is None:
        raise Foreign('a blank cell 0')
    reader = Reader(head)
    if reader.bytes(9) != b'\x04CASREG02':
        raise Foreign('no head of a shelf')
    narrow, wide = reader.take('I'), reader.take('I')
    ages = [reader.take('Q') for _proposer in range(17)]
    reader.end()
    if narrow != 0 or wide > 4096 or max(ages) > 2**48:
        raise Foreign('a head out of its range')
    slots = {}
    for cell in range(wide):
        payload = payload_of(disk, 1024 + 9216 * cell, 4608)
        if payload is None or payload == b'\x00':
            continue
        reader = Reader(payload)
        if reader.take('B') != 1:
            raise Foreign(f'no slot in cell {cell}')
        key, promise = reader.key(), reader.ballot()
        accepted = None
        some = reader.take('B')
        if some > 1:
            raise Foreign('neither none nor some')
        if some:
            accepted = reader.ballot(), reader.take('I'), reader.state()
        reader.end()
        if key in slots:
            raise Foreign(f'the key {key} in two cells')
        slots[key] = promise, accepted
    return slots


def read_vault(disk):
    """The bound, the age and the era of a vault's disk."""
    payload = payload_of(disk, 0, 512)
    if payload is None:
        raise Foreign('a blank cell 0')
    reader = Reader(payload)
    if reader.bytes(9) != b'\x03CASVLT01':
        raise Foreign('no vault')
    bound, age, era = reader.take('Q'), reader.take('Q'), reader.take('I')
    reader.end()
    if bound > 2**48 or age > 2**48:
        raise Foreign('a vault out of its range')
    return bound, age, era


# ---- a session, and the disks that it leaves

ACCEPTORS = [1, 2, 3]
PROPOSERS = [0, 1, 2]
WORDS = ['script', '--acceptors', '3', '--proposers', '2', '--tries', '8']


def line_of(number):
    """The line of that number: of two callers, on five keys, each of which is put, added to, emptied and read. Now and then an acceptor or a
    proposer is down for some lines."""
    acceptor, proposer = 1 + number // 50 % 3, 1 + number // 50 % 2
    caller = 1 + number // 7 % 2
    events = {
        20: f'crash acceptor {acceptor}',
        30: f'crash proposer {proposer}',
        31: f'restart proposer {proposer}',
        40: f'restart acceptor {acceptor}',
    }
    if number % 50 in events:
        return events[number % 50]
    key = 'abcde'[number % 5]
    kind = number // 5 % 8
    if kind == 0:
        return f'{caller} set {key} t{number}'
    if kind == 1:
        return f'{caller} num {key} {number}'
    if kind == 5:
        return f'{caller} get {key}'
    if kind == 7:
        return f'{caller} del {key}'
    return f'{caller} add {key} {kind}'


def done_of(answer):
    """The ballot and the state, as text, of an answer that says done; or nothing."""
    words = answer.split()
    if len(words) < 2 or words[1] != 'done':
        return None
    at = words.index('at')
    counter, proposer = words[at + 1].split('.')
    return (int(counter), int(proposer)), ' '.join(words[2:at])


def told_of(lines, answers, whole):
    """What so many answers told of each key: the last change that was done, with its ballot and state, and behind it the one that is under way,
    if it comes to be done; and whether others came behind that may stand. `whole` are the answers of the run to its end."""
    told = {}
    for number, line in enumerate(lines[:len(answers) + 1]):
        words = line.split()
        if number >= len(whole) or not is_change(words):
            continue
        done = done_of(whole[number])
        may_stand, others = told.get(words[2], ([None], False))
        if done and number < len(answers):
            told[words[2]] = [done], False
        elif done:
            told[words[2]] = may_stand + [done], others
        elif PROPOSED.fullmatch(whole[number].split(': ', 1)[1]):
            told[words[2]] = may_stand, True
    return told


def stands(lines, answers, whole, shelves):
    """What is wrong with what stands on the shelves after so many answers: the last change of a key that was answered done, or what may have
    come behind it, is what a majority has accepted."""
    for key, (may_stand, others) in told_of(lines, answers, whole).items():
        if may_stand[0] is None:
            continue
        holders = 0
        for slots in shelves:
            accepted = slots.get(key, (None, None))[1]
            if accepted and (accepted[0], state_text(accepted[2])) in may_stand:
                holders += 1
            elif accepted and others and accepted[0] > may_stand[0][0]:
                holders += 1
        if 2 * holders <= len(shelves):
            return f'{key} stands on {holders} of {len(shelves)} disks, of {may_stand}'
    return None


def is_drawn(shelves, vaults):
    """What is wrong with the vaults: a ballot that an acceptor keeps is above what its proposer's vault has as drawn."""
    for slots in shelves:
        for promise, accepted in slots.values():
            for counter, proposer in [promise] + ([accepted[0]] if accepted else []):
                if counter and counter > vaults[proposer][0]:
                    return f'the ballot {counter}.{proposer} is above the bound of its vault'
    return None


# more than 4,096 wide cells have, and all that a disk tells stands before
LONGEST = 2**26


def disks_in(folder):
    """The disks of a folder, by their names: their fronts of 2^26 bytes."""
    disks = {}
    for name in os.listdir(folder):
        with open(os.path.join(folder, name), 'rb') as file:
            disks[name] = file.read(LONGEST)
    return disks


def look(disks, lines, whole, written):
    """What is wrong with what a run wrote and left, and how many answers it wrote."""
    text = written.decode()
    answers = text.split('\n')[:-1]
    if not '\n'.join(whole + ['']).startswith(text):
        return 'it wrote something else', len(answers)
    registers = Registers()
    try:
        for line, answer in zip(lines, answers):
            registers.take(line, answer)
    except Wrong as wrong:
        return str(wrong), len(answers)
    shelves, vaults = [], {}
    for name, disk in sorted(disks.items()):
        number = int(name[1:])
        try:
            if name[0] == 'a' and number in ACCEPTORS:
                shelves.append(read_shelf(disk))
            elif name[0] == 'v' and number in PROPOSERS:
                vaults[number] = read_vault(disk)
            elif disk:
                return f'{name} is not empty', len(answers)
        except Foreign as foreign:
            return f'{name} is foreign: {foreign}', len(answers)
    if len(shelves) != len(ACCEPTORS) or len(vaults) != len(PROPOSERS):
        return 'a disk is not there', len(answers)
    return stands(lines, answers, whole, shelves) or is_drawn(shelves, vaults), len(answers)
