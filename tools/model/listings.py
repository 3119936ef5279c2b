"""What a program under way shows: a list of lines for each listing."""
from state import AdaException, Array, Running


def numbers_of(ones):
    return {id(one): number for number, one in enumerate(ones, 1)}


def status(machine, task):
    if task.status != "running":
        return task.status
    if task.serving:
        return "ready"
    step = machine.due(task)
    return "master" if machine.is_held(step) else "object" if step.waits_for_object(task) else "ready"


def line(machine, task):
    if task.status == "created":
        return task.task_type.body.line
    return task.task_type.body.body.end if task.is_over else machine.due(task).line


def tasks(machine):
    lines = []
    for number, task in enumerate(machine.tasks, 1):
        abnormal = " abnormal" if task.is_abnormal else ""
        lines.append(f"{number} {task.name} {status(machine, task)}{abnormal} {line(machine, task)}")
    return lines


def queues(machine):
    numbers = numbers_of(machine.tasks)
    called = [("task", number, task) for number, task in enumerate(machine.tasks, 1)]
    called += [("object", number, protected) for number, protected in enumerate(machine.objects, 1)]
    lines = []
    for kind, number, unit in called:
        for entry, calls in unit.queues.items():
            if calls:
                lines.append(f"{kind} {number} {unit.name}.{entry}:" + "".join(f" {numbers[id(call.caller)]}" for call in calls))
    return lines


def moves(machine):
    numbers = numbers_of(machine.tasks)
    lines = []
    for number, move in enumerate(machine.moves()):
        alternative = f" {move.alternative}" if move.alternative else ""
        lines.append(f"{number} {numbers[id(move.task)]} {move.task.name} {line(machine, move.task)} {move.kind}{alternative}")
    return lines


def shown(value):
    return str(value).upper()


def variables(machine, number):
    """Of the task of this number; None where there is no such task."""
    if not 1 <= number <= len(machine.tasks):
        return None
    lines = []
    for depth, frame in enumerate(machine.tasks[number - 1].frames, 1):
        for name, variable in frame.variables:
            if isinstance(variable, Running) or isinstance(variable, Array) and variable.subtype is None:
                continue
            values = variable.values if isinstance(variable, Array) else [variable.value]
            lines.append(f"{depth} {name} =" + "".join(f" {shown(value)}" for value in values))
    return lines


def objects(machine):
    """Those whose declarative part is not left."""
    numbers = numbers_of(machine.tasks)
    parts = [frame for task in machine.tasks for frame in task.frames]
    lines = []
    for number, protected in enumerate(machine.objects, 1):
        if protected.part in parts:
            name = f"{number} {protected.name}"
            lines.append(" ".join([name, *([str(numbers[id(task)]) for task in protected.actions] or ["idle"])]))
            lines += [f"{name}.{component} = {shown(variable.value)}" for component, variable in protected.components.items()]
            lines += [f"{name}.{entry} {barrier(machine, protected, entry)}" for entry in protected.queues]
    return lines


def barrier(machine, protected, entry):
    try:
        return shown(machine.barrier(protected, entry))
    except AdaException as exception:
        return exception_name(exception.identity)


def exception_name(identity):
    return identity if isinstance(identity, str) else identity[1]


def waits(machine):
    lines = []
    for number, task in enumerate(machine.tasks, 1):
        if task.next:
            lines += [f"{number} {task.name} {reason}" for reason in reasons(machine, task)]
    return lines


def reasons(machine, task):
    """Of one that is activated and not terminated."""
    step, found = machine.due(task), []
    if task.next.raised:
        found.append(f"raised {exception_name(task.next.raised)}")
    if task.waits and step is task.next:
        found += blocked(machine, task)
    if step.waits_for_object(task):
        found.append(f"object {numbers_of(machine.objects)[id(step.object)]} {step.object.name}")
    if machine.is_held(step):
        found.append("master" + listed(machine, lambda other: step.master in other.masters and not other.is_terminated))
    return found


def blocked(machine, task):
    """What it waits for, by its status."""
    call, waits = task.call, task.waits
    if task.status == "queued":
        return [f"call {of_entry(machine, call)}"] + ([] if call.stays or call.time is None else [f"delay {call.time}"])
    if task.status == "rendezvous":
        return [f"selected {of_entry(machine, call)}"]
    if task.status == "activation":
        return ["activation" + listed(machine, lambda other: other.activator is task)]
    words = ["accept"] * (task.status == "accept") + [entry for _, entry in waits.accepts] + ["terminate"] * waits.terminates
    return [" ".join(words + ([f"delay {min(time for _, time in waits.delays)}"] if waits.delays else []))]


def of_entry(machine, call):
    kind, ones = ("", machine.tasks) if isinstance(call.unit, Running) else ("object ", machine.objects)
    return f"{kind}{numbers_of(ones)[id(call.unit)]} {call.unit.name}.{call.entry}"


def listed(machine, passes):
    return "".join(f" {number}" for number, task in enumerate(machine.tasks, 1) if passes(task))
