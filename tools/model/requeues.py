"""Programs made by chance in which most calls that are accepted or served are made again (RM 9.5.4)."""

FORMAL = " (N : in out Integer)"


class Requeues:
    """The writer of one program: one or two tasks with entries, one or two objects, and up to four callers."""

    def __init__(self, by):
        self.by = by
        self.tasks = ["S1", "S2"][: self.pick(1, 2, 2)]
        self.objects = ["P", "Q"][: self.pick(1, 1, 2)]
        self.callers = [f"T{number}" for number in range(1, self.pick(3, 4, 4, 5))]
        self.entries = {owner: self.entries_of(owner, letters) for owner, letters in self.owners()}

    def pick(self, *ones):
        return self.by.choice(ones)

    def often(self, part):
        return self.by.random() < part

    def owners(self):
        return [(task, "ABC") for task in self.tasks] + [(an_object, "EFG") for an_object in self.objects]

    def entries_of(self, owner, letters):
        """Their names, and whether each has the formal."""
        return [(letter + owner[-1], self.often(0.65)) for letter in letters[: self.pick(1, 2, 2, 3)]]

    def heads(self, owner):
        return [f"entry {name}{FORMAL if formal else ''};" for name, formal in self.entries[owner]]

    def requeue(self, formal, owner):
        """From an entry body to its own object, from an accept to any entry."""
        inside = owner in self.objects
        targets = []
        for other in [owner] if inside else self.objects + self.tasks:
            for name, takes in self.entries[other]:
                if formal or not takes:
                    bare = other == owner and self.often(0.6)
                    targets.append(name if bare else f"{other}.{name}")
        return f"requeue {self.pick(*targets)}{self.pick('', ' with abort')};" if targets else "null;"

    def changed(self, formal, count):
        """What changes the number that the requeue is asked by, so that few programs go on for ever."""
        return f"N := N {self.pick('+ 1', '* 2', '+ 3')};" if formal else f"{count} := {count} + 1;"

    def body(self, formal, owner):
        inside = owner in self.objects
        count = "H" if inside else "R"
        asked = "N" if formal else count
        lines = [self.changed(formal, count)]
        if not inside and self.often(0.15):
            lines.append(f"delay {self.pick('0.1', '0.3', '0.5')};")
        if self.often(0.1):
            lines.append(f"if {asked} > {self.pick(1, 3, 5)} then raise Program_Error; end if;")
        requeue, form = self.requeue(formal, owner), self.by.random()
        if form < 0.5:
            lines.append(f"if {asked} {self.pick('<', '<', '>', '/=')} {self.pick(2, 4, 6)} then {requeue} end if;")
        elif form < 0.6:
            lines.append(f"for I in 1 .. 3 loop if I = {self.pick(1, 2, 4)} then {requeue} end if; end loop;")
        elif form < 0.7:
            lines.append(f"begin {requeue} exception when others => null; end;")
        elif form < 0.85:
            lines.append(requeue)
        return lines

    def accept(self, task, entry):
        name, formal = entry
        head = f"accept {name}{FORMAL if formal else ''}"
        if self.often(0.15):
            return [head + ";"]
        lines = self.body(formal, task)
        others = [other for other in self.entries[task] if other != entry]
        if others and self.often(0.15):
            inner, takes = self.pick(*others)
            lines = [f"accept {inner}{FORMAL if takes else ''} do", *self.body(takes, task), f"end {inner};", *lines]
        return [head + " do", *lines, f"end {name};"]

    def alternatives(self, task):
        lines = []
        for entry in self.entries[task]:
            for _ in range(self.pick(1, 1, 1, 2)):
                lines += ["or"] if lines else []
                lines += [f"when {self.pick('R < 4', 'R > 0', 'V = 0')} =>"] if self.often(0.15) else []
                lines += self.accept(task, entry)
        end = self.by.random()
        if end < 0.7:
            return lines + ["or", "terminate;"]
        return lines + (["or", f"delay {self.pick('0.2', '1.0')};", "R := R + 1;"] if end < 0.8 else [])

    def task_body(self, task):
        lines = [f"task body {task} is", "begin"]
        if self.often(0.2):
            for entry in self.entries[task] * 2:
                lines += self.accept(task, entry)
        else:
            select = ["select", *self.alternatives(task), "end select;"]
            if self.often(0.4):
                select = ["begin", *select, "exception", "when others => R := R + 1;", "end;"]
            lines += [self.pick("loop", "for I in 1 .. 4 loop"), *select, "end loop;"]
        return [*lines, f"end {task};"]

    def barrier(self, an_object):
        name, _ = self.pick(*self.entries[an_object])
        return self.pick("True", "Open", "Open", "not Open", "H > 1", "H < 3", f"{name}'Count > 0", f"{name}'Count = 0", "3 / H > 0")

    def object_body(self, an_object):
        lines = [f"protected body {an_object} is"]
        for name, formal in self.entries[an_object]:
            head = f"entry {name}{FORMAL if formal else ''} when {self.barrier(an_object)} is"
            lines += [head, "begin", *self.body(formal, an_object), f"end {name};"]
        return [*lines, f"procedure Set{an_object} (B : in Boolean) is begin Open := B; end Set{an_object};", f"end {an_object};"]

    def call(self, variables):
        kind = self.by.random()
        if kind < 0.12:
            an_object = self.pick(*self.objects)
            return [f"{an_object}.Set{an_object} ({self.pick('True', 'False')});"]
        if kind < 0.2:
            return [f"delay {self.pick('0.1', '0.4', '0.6')};"]
        if kind < 0.28:
            return [f"abort {self.pick(*self.callers, *self.tasks)};"]
        owner = self.pick(*self.entries)
        name, formal = self.pick(*self.entries[owner])
        call = f"{owner}.{name}{f' ({self.pick(*variables)})' if formal else ''};"
        form = self.by.random()
        if form < 0.45:
            return [call]
        then = [f'Put ("{self.pick(*"abcd")}");']
        if form < 0.8:
            return ["select", call, *then, "or", f"delay {self.pick('0.0', '0.1', '0.4', '0.5', '1.0')};", 'Put ("l");', "end select;"]
        return ["select", call, *then, "else", 'Put ("n");', "end select;"]

    def caller_body(self, caller):
        lines = [f"task body {caller} is", "Y : Integer := 0;", "begin"]
        for _ in range(self.pick(1, 2, 3)):
            call = self.call("VWXYY")
            if self.often(0.5):
                call = ["begin", *call, "exception", f'when {self.pick("others", "Tasking_Error")} => Put ("x");', "end;"]
            lines += call
        return [*lines, "Put (Y'Image);", f"end {caller};"]

    def program(self):
        lines = ["procedure M is", "R, V, W, X : Integer := 0;"]
        for one in self.objects:
            private = ["private", f"Open : Boolean := {self.pick('True', 'False', 'False')};", "H : Integer := 0;"]
            lines += [f"protected {one} is", *self.heads(one), f"procedure Set{one} (B : in Boolean);", *private, f"end {one};"]
        for task in self.tasks:
            lines += [f"task {task} is", *self.heads(task), f"end {task};"]
        lines += [f"task {caller};" for caller in self.callers]
        for parts, write in (self.objects, self.object_body), (self.tasks, self.task_body), (self.callers, self.caller_body):
            for part in parts:
                lines += write(part)
        lines.append("begin")
        for _ in range(self.pick(1, 1, 2, 3)):
            lines += self.call("VWX")
        return [*lines, "Put (V'Image);", "end M;"]
