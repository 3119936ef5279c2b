"""What is typed behind a command: numbers, tasks, lines."""
import re


class Wrong(Exception):
    """What was typed cannot be done, and why."""


def number(word, what, least, most):
    if not re.fullmatch(r"\d{1,12}", word) or not least <= int(word) <= most:
        wanted = f"a number from {least} to {most}" if least < most else f"{least} here"
        raise Wrong(f"{what} is {wanted}" + (f": `{word}` is not" if word else ""))
    return int(word)


def optional_number(words, default, what, least, most):
    """The one number that may stand there."""
    words = words.split()
    if len(words) > 1:
        raise Wrong(f"one number at most, {what}, may stand there")
    return number(words[0], what, least, most) if words else default


def names_task(word, number, name):
    """Whether a word names a task: `t2`, `2`, `Forks(1)`, or `Forks` for each of an array."""
    wanted = re.sub(r"\s", "", word).upper()
    return wanted in (f"T{number}", str(number), name) or name.startswith(wanted + "(")


def task_of(word, tasks):
    """The one task that a word names."""
    found = [it for it in tasks if names_task(word, it.number, it.name)]
    if len(found) == 1:
        return found[0]
    if found:
        raise Wrong(f"which one: {', '.join(f't{it.number}' for it in found)}?")
    raise Wrong(f"no task `{word}` is there now: `tasks` tells them")
