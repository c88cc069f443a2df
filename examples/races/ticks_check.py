"""The check of `ticks`: the answer is the time of the question, in ticks of 500 cycles, to within two ticks."""


def check(run):
    """None, or what is wrong with a run whose question came in cycle `run.at`."""
    answer = run.text(0)
    try:
        told = int(answer, 16)
    except ValueError:
        return f"no answer: {answer!r}"
    asked = run.at // 500
    return None if abs(told - asked) <= 2 else f"a time that is {abs(told - asked)} ticks off"
