"""Whether one order of all lines explains every answer that the offices got. It uses a second implementation of the office's rules.

An accepted line has its place, since its answer names its revision. Some lines without an answer were accepted: those that the register has
at a revision that no answer names. Then

1. no two answers name one revision, and each revision is the line of an office;
2. a line that was answered before another one was sent comes before it;
3. at each revision the model accepts the line after the accepted lines before;
4. for each refused line there is a moment between its sending and its answer at which the model refuses it by the same words. A line that was
   sent after a refusal had arrived comes not before that refusal's moment;
5. the lines of one connection take effect in the order in which they were sent.
"""
import bisect
import functools
import heapq

import office_model


class Op:
    """A line, when it was sent and when it was answered; without an answer the connection ended before. `after` is the line before it on the
    same connection."""

    def __init__(self, client, node, tag, line, after=None):
        self.client, self.node, self.tag, self.line, self.after = client, node, tag, line, after
        self.begun = self.ended = self.answer = self.place = None

    def revision(self):
        """The revision that the answer names, or None."""
        return int(self.answer.split()[1]) if self.answer and self.answer.startswith("revision ") else None


@functools.lru_cache(1 << 16)
def read(line):
    """The command of a line, or None."""
    try:
        office_model.need(len(line) <= office_model.LINE)
        return office_model.command(line)
    except office_model.NotACommand:
        return None


@functools.lru_cache(1 << 16)
def journal_line(line):
    """The line as a journal has it. What is not a command stays as it is."""
    told = read(line)
    return office_model.line_of(*told).encode() if told else line


class Model:
    """The states that each object had at each revision."""

    def __init__(self):
        self.history, self.revision = {}, 0

    def at(self, number, revision):
        known = None
        for since, state in self.history.get(number, []):
            if since > revision:
                break
            known = state
        return known

    def refusal(self, line, revision):
        """The words of the refusal of a line at a revision, or None if it is accepted."""
        told = read(line)
        if told is None:
            return "NotACommand"
        do, number, at, name, said = told
        named = [number, *[(said or {}).get(it) for it in ("unit", "party")]]
        known = {it: self.at(it, revision) for it in named if it is not None}
        return office_model.refusal({it: state for it, state in known.items() if state}, do, number, at, name, said)

    def enter(self, line):
        do, number, at, name, _ = read(line)
        before = self.at(number, self.revision)
        self.revision += 1
        state = {"class": before["class"] if before else name, "since": None} if do == "retire" else {"class": name, "since": at}
        self.history.setdefault(number, []).append((self.revision, state))


class Orders:
    """A history: the lines of the offices, and the line at each revision from 1 on."""

    def __init__(self, ops, lines):
        self.ops, self.lines, self.faults, self.model = sorted(ops, key=lambda it: it.begun), lines, [], Model()
        self.unsure = {}
        for op in self.ops:
            if op.answer is None:
                self.unsure.setdefault(op.line, []).append(op)

    def fault(self, text):
        self.faults.append(text)

    def told(self):
        """The lines whose answers name a revision."""
        found = {}
        for op in self.ops:
            number = op.revision()
            if number is None:
                continue
            if number in found:
                self.fault(f"revision {number} is the answer to {found[number].tag} and to {op.tag}")
            if not 1 <= number <= len(self.lines):
                self.fault(f"revision {number} is an answer, and no register has it")
            found[number] = op
        return found

    def place_accepted(self):
        """The line of an office at each revision."""
        told, accepted = self.told(), []
        for number, line in enumerate(self.lines, 1):
            op = told.get(number)
            if op is None and self.unsure.get(line):
                op = self.unsure[line].pop(0)
            if op is None:
                self.fault(f"revision {number} is the line of no office: {line[:80]}")
            elif op.line != line:
                self.fault(f"revision {number} is the answer to {op.line[:80]}, and the registers have {line[:80]}")
            else:
                op.place = number
                accepted.append(op)
            why = self.model.refusal(line, number - 1)
            if why:
                self.fault(f"the model refuses revision {number}: {why}")
            else:
                self.model.enter(line)
        return accepted

    def check_time(self, accepted):
        """No line was sent after the answer to a line of a higher revision."""
        earliest = float("inf")
        for op in reversed(accepted):
            if op.ended is not None:
                earliest = min(earliest, op.ended)
            if op.begun > earliest:
                self.fault(f"{op.tag} at revision {op.place} was sent after the answer to a line of a higher revision")

    def check_connections(self):
        """On each connection the revisions rise."""
        for op in self.ops:
            before = op.after
            while before is not None and before.place is None:
                before = before.after
            if before is not None and op.place is not None and op.place < before.place:
                self.fault(f"{op.tag} has revision {op.place}, and the line before it on the same connection {before.place}")

    def bounds_behind(self):
        """For each line the lowest revision of a later line of its connection."""
        lowest = {}
        for op in reversed(self.ops):
            here = op.place if op.place is not None else lowest.get(op, len(self.lines) + 1)
            if op.after is not None:
                lowest[op.after] = min(lowest.get(op.after, len(self.lines) + 1), here, lowest.get(op, len(self.lines) + 1))
        return lowest

    def check_refusals(self, accepted):
        """Looks for the moment of each refusal, the earliest that there can be."""
        tells = sorted((op.ended, op.place) for op in accepted if op.ended is not None)
        sent = sorted((op.begun, op.place) for op in accepted)
        lowest = [len(self.lines) + 1] * (len(sent) + 1)
        for at in range(len(sent) - 1, -1, -1):
            lowest[at] = min(lowest[at + 1], sent[at][1])
        behind, least, at_tell, seen, count = self.bounds_behind(), 0, 0, [], 0
        for op in self.ops:
            if op.answer is None or op.revision() is not None:
                continue
            count += 1
            while at_tell < len(tells) and tells[at_tell][0] < op.begun:
                least, at_tell = max(least, tells[at_tell][1]), at_tell + 1
            while seen and seen[0][0] < op.begun:
                least = max(least, heapq.heappop(seen)[1])
            first = max(least, (op.after.place or 0) if op.after else 0)
            most = min(lowest[bisect.bisect_right(sent, (op.ended, 0))], behind.get(op, len(self.lines) + 1)) - 1
            words = " ".join(op.answer.split()[2:])
            op.place = next((it for it in range(first, most + 1) if self.model.refusal(op.line, it) == words), None)
            if op.place is None:
                others = sorted({str(self.model.refusal(op.line, it)) for it in range(first, min(most, first + 50) + 1)})
                self.fault(f"{op.tag} got {op.answer!r}, and from revision {first} to {most} the model says {others}")
            else:
                heapq.heappush(seen, (op.ended, op.place))
        return count

    def check(self):
        """The faults, and how many lines there are of each kind."""
        accepted = self.place_accepted()
        self.check_time(accepted)
        self.check_connections()
        refused = self.check_refusals(accepted)
        answered = sum(op.answer is not None for op in accepted)
        return self.faults, {"accepted": len(accepted), "of them without an answer": len(accepted) - answered, "refused": refused,
                             "not entered, without an answer": sum(map(len, self.unsure.values()))}
