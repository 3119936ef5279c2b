"""Protected objects: their declarations, protected actions, calls, barriers and servicing."""
from state import (
    AdaException, Ahead, Array, Callee, EntryCall, Frame, Inside, OBJECTS, Own, ProtectedObject, Scope, Step, TaskType, Variable, Waits,
    program_error, storage_error,
)
from trees import Arrays, Objects, Offer, ProtectedBody, Task


class Protection:
    """What a machine does by protected objects."""

    def protected(self, task, declaration, scope):
        """With its components, each of which sees those before it."""
        inner, components = Scope(scope), {}
        for objects in declaration.items:
            if isinstance(objects, Objects):
                for name in objects.names:
                    inner.names[name] = components[name] = self.object(task, name, objects, inner)
        if len(self.objects) == OBJECTS:
            raise storage_error()
        operations = {operation.name: operation for operation in declaration.operations()}
        self.objects.append(ProtectedObject(declaration.name, operations, inner, components, task.frames[-1]))
        return self.objects[-1]

    def look_ahead(self, protected, scope, behind):
        """Gives it its bodies before these are declared, so that its barriers can be shown."""
        number = next(at for at, it in enumerate(behind) if isinstance(it, ProtectedBody) and it.name == protected.name)
        before, zeros = behind[:number], {}
        types = [it.name for it in before if isinstance(it, Task) and it.is_type]
        for declaration in before:
            if isinstance(declaration, Task) and not declaration.is_type:
                zeros[declaration.name] = self.tasks[0]
            elif isinstance(declaration, (Arrays, Objects)):
                is_task = declaration.subtype in types or isinstance(scope.find(declaration.subtype), TaskType)
                zeros |= {name: self.zero(declaration, is_task) for name in declaration.names}
        self.protected_body(protected, behind[number], Ahead(scope, zeros))

    def zero(self, declaration, is_task):
        """A task's number is that of the main procedure then."""
        zero = self.tasks[0] if is_task else False if declaration.subtype == "BOOLEAN" else 0
        if isinstance(declaration, Arrays):
            return Array(declaration.low, declaration.high, [zero] * max(0, declaration.high - declaration.low + 1), declaration.subtype)
        return zero if is_task else Variable(zero, declaration.subtype)

    def protected_body(self, protected, declaration, scope):
        inner = protected.scope
        inner.outer = Scope(scope, {protected.name: Inside(protected)})
        inner.names.update((name, Own(protected, operation)) for name, operation in protected.operations.items())
        protected.bodies = {body.name: Callee(body, inner) for body in declaration.operations}

    def is_acting(self, task):
        return any(task in protected.actions for protected in self.objects)

    def may_block(self, task):
        if self.is_acting(task):
            raise program_error()

    def of_object(self, name, scope):
        """An object and its operation, and whether this name of it stands in the object's body; or nothing."""
        if name.predefined:
            return None
        found = scope.find(name.before.name if name.before else name.name)
        if isinstance(found, Own):
            return found.object, found.operation, True
        is_inside = isinstance(found, Inside)
        protected = found.object if is_inside else found
        is_named = name.before and isinstance(protected, ProtectedObject)
        return (protected, protected.operations[name.name], is_inside) if is_named else None

    def protected_call(self, task, statement, name, scope):
        """Answers whether it was selected."""
        protected, operation, is_inside = self.of_object(name, scope)
        is_function, is_entry = operation.kind == "function", operation.kind == "entry"
        yield Step("proc", statement.line) if is_inside else Step("start", statement.line, None, None, protected, is_function)
        target = self.variable(statement.target, scope) if is_function else None
        formals, copies = self.passed(operation.formals, name.arguments, scope)
        time = self.time(statement, scope)
        if is_entry and self.is_acting(task) or not is_inside and task in protected.actions:
            raise program_error()
        self.may_enter(task)
        queue = protected.queues.get(operation.name)
        call = EntryCall(task, formals, copies, queue, target, protected, statement.line, time, protected, operation.name)
        if is_inside:
            yield from self.run_body(task, Frame("procedure"), protected.bodies[operation.name], call, statement.line)
        elif is_entry:
            yield from self.protected_entry_call(task, statement, protected, operation, call)
        else:
            protected.actions[task] = is_function
            yield from self.run_body(task, Frame("operation"), protected.bodies[operation.name], call, statement.line)
            yield from self.end_action(task, protected, statement.line, is_function, call)
        if call.exception:
            call.exception.line = statement.line
            raise call.exception
        return not call.is_cancelled

    def protected_entry_call(self, task, statement, protected, operation, call):
        protected.actions[task] = False
        try:
            is_open = self.barrier(protected, operation.name)
        except AdaException:
            call.exception = program_error()
            self.refuse_all(protected)
            del protected.actions[task]
            return
        if is_open:
            yield from self.run_body(task, Frame("entry"), protected.bodies[operation.name], call, statement.line)
        elif isinstance(statement, Offer) and not statement.delay:
            call.is_cancelled = True
            del protected.actions[task]
            return
        else:
            call.queue.append(call)
        yield from self.end_action(task, protected, statement.line, call=call)
        if not call.is_over:
            task.call = call
            yield from self.wait(task, "queued", statement.line, call.waits())
        yield from self.expired(task, call, statement.line)

    def expired(self, task, call, line):
        """One that was queued on an object's entry leaves it, which may make others eligible."""
        if call.is_cancelled and call.object:
            call.object.actions[task] = False
            yield from self.end_action(task, call.object, line)

    def start_again(self, task, call, again):
        """A call that an accept makes again on an object."""
        protected, entry, task.is_restarting = again.unit, again.entry.name, True
        call.unit = protected
        yield Step("start", again.line, None, None, protected)
        task.is_restarting = False
        if call.is_lost():
            self.lose(call)
            return
        call.object, call.queue, protected.actions[task] = protected, protected.queues[entry], False
        try:
            is_open = self.barrier(protected, entry)
        except AdaException:
            self.end_call(call, program_error())
            self.refuse_all(protected)
            del protected.actions[task]
            return
        if is_open:
            yield from self.run_body(task, Frame("entry"), protected.bodies[entry], call, again.line)
        else:
            self.queue_again(task, call)
        yield from self.end_action(task, protected, again.line)

    def serve(self, task, protected, entry, call, line):
        task.serving += 1
        yield from self.run_body(task, Frame("entry"), protected.bodies[entry], call, line)
        task.serving -= 1

    def end_action(self, task, protected, line, is_function=False, call=None):
        """After it has served the entries that are eligible, if it is no function's; of the task's own call, if any, an exception is
        pending meanwhile."""
        while not is_function and self.is_serviced(protected):
            raised = call.exception.identity if call and call.exception else None
            alternative = yield Step("serve", line, None, lambda: self.eligible(protected), raised=raised)
            if alternative:
                entry = [*protected.queues][alternative - 1]
                call = protected.queues[entry].pop(0)
                if call.caller is not task:
                    call.caller.status, call.caller.waits = "rendezvous", Waits()
                yield from self.serve(task, protected, entry, call, line)
        del protected.actions[task]

    def barrier(self, protected, entry):
        callee = protected.bodies[entry]
        return self.value(callee.procedure.barrier, callee.scope)

    def eligible(self, protected):
        """The numbers of the entries that have a queued call and a barrier that is True."""
        queued = [(number, entry) for number, entry in enumerate(protected.queues, 1) if protected.queues[entry]]
        return [number for number, entry in queued if self.barrier(protected, entry)]

    def is_serviced(self, protected):
        """Whether an entry is eligible; a barrier that raises an exception refuses all calls."""
        try:
            return bool(self.eligible(protected))
        except AdaException:
            self.refuse_all(protected)
            return False

    def refuse_all(self, protected):
        for queue in protected.queues.values():
            while queue:
                self.end_call(queue.pop(0), program_error())
