"""Runs of `hbone replay` as the second, plain model ends them, and how they are put into a table; for the scripts beside this one."""
import replay_rows
import tunnel_model

# In how many ways a run is cut by chance
CUTS = 50


# Runs


def asked(words):
    return [*replay_rows.USUAL_WORDS, *words]


def answer(words, script):
    """The status, the output and the error text."""
    return tunnel_model.replay(asked(words), script.encode())


def is_determined(words, script):
    """Whether the run ends the same by every choice that the pages leave open."""
    return tunnel_model.is_determined(asked(words), script.encode())


def traced(rows, longest, most):
    """Of these rows those whose trace is short, which tell that too, if the pages say its order."""
    told = []
    for name, script, words, _ in rows:
        entries = [*words, "--trace"]
        if len(script) < longest and len(answer(entries, script)[1]) < most and is_determined(entries, script):
            told.append((name + ", told", script, entries, None))
    return told


# Rows


def put_row(table, name, script, words, want=None, cuts=0):
    """Puts a run into a table, whose output by hand is this where it was worked out."""
    assert is_determined(words, script), name
    status, output, error = answer(words, script)
    assert want is None or output == want, f"{name}:\n{output}\nby hand:\n{want}"
    table.script(name, ["replay", *asked(words)], script, status, output, error, cuts)


def put_cut(table, runs, words):
    """Puts runs into a table that end the same however what comes on the first two links is cut."""
    for name, script in runs:
        put_row(table, f"{name}, cut", script, words, cuts=CUTS)
