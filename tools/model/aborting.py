"""Abort: which tasks become abnormal, what becomes of their calls, and how they end."""
from state import Step, Waits, tasking_error


class Aborting:
    """What a machine does by abort."""

    def abort(self, named):
        """Their own calls are taken from all queues before those on their entries are refused."""
        aborted = [task for task in self.tasks if not task.is_terminated and (task in named or self.depends_on_any(task, named))]
        for task in aborted:
            task.is_aborted = True
            self.cancel_queued(task)
        for task in aborted:
            self.refuse_callers(task)
            if task.status == "created":
                self.terminate(task)
            elif task.waits:
                task.waits = Waits()

    def depends_on_any(self, task, others):
        return any(other.frames and other.frames[0] in task.masters for other in others)

    def cancel_queued(self, task):
        for unit in [*self.tasks, *self.objects]:
            for queue in unit.queues.values():
                for call in [call for call in queue if call.caller is task and not call.stays]:
                    queue.remove(call)
                    call.is_cancelled = True
                    task.status, task.withdraws = "running", call if call.object else None

    def is_deferred(self, task):
        """In a protected action or before one that makes a call again, in the call that it makes or queued by one that stays, or at the end
        of a master, that of its body among them."""
        is_called = task.status == "rendezvous" or task.status == "queued" and task.call.stays
        return self.is_acting(task) or task.is_restarting or is_called or not task.waits and task.next.master is not None

    def due(self, task):
        """The step that it does next, in place of the one before which it stands where an abort says so."""
        if not task.is_aborted or task.next is None or self.is_deferred(task):
            return task.next
        if task.withdraws:
            return Step("withdraw", task.withdraws.line, object=task.withdraws.object)
        return Step("complete", task.task_type.body.body.end)

    def give_up(self, task, step):
        """Does the step that is due, and goes on as an abnormal task does."""
        task.status, task.waits = "running", None
        task.steps = self.withdrawal(task) if step.kind == "withdraw" else self.ending(task)
        self.resume(task)

    def withdrawal(self, task):
        call, task.withdraws = task.withdraws, None
        call.object.actions[task] = False
        yield from self.end_action(task, call.object, call.line)
        yield Step("complete", task.task_type.body.body.end)

    def ending(self, task):
        """From the completion on, wherever in its body the task stands."""
        task.status = "completed"
        for frame in task.frames:
            if frame.call:
                self.end_call(frame.call, tasking_error())
        self.refuse_callers(task)
        self.drop_created(task.frames)
        self.end_activation(task, task.raised is not None and not task.is_aborted)
        yield Step("close", task.task_type.body.body.end, task.frames[0])
        self.close(task.frames[0])
        self.terminate(task)
