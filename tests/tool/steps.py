"""A program that is stopped at a step of the replacement of its file; see step.c."""
import preload


def environment(case, step, how):
    """The environment in which a program meets this step; `how` is 'kill' or an error's number."""
    return preload.environment(case, 'step', STEP=step, HOW=str(how), TRACE=case.path('trace'))
