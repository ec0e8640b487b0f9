"""The command `tools/check`: its words, and which check they ask for."""
import argparse
from types import ModuleType

from . import jobs, running


def summary(module: ModuleType) -> str:
    """The first sentence of the module's docstring."""
    return ' '.join(module.__doc__.split('\n\n')[0].split()).removesuffix('.')


def parser_of_jobs() -> argparse.ArgumentParser:
    """The words of all checks."""
    parser = argparse.ArgumentParser(prog='tools/check', description='Checks a built program, and the C library, against plain programs. '
                                     'The status is 0 where nothing differs, else 1.', epilog='`tools/check JOB --help` has the options.')
    named = parser.add_subparsers(dest='job', metavar='JOB', required=True, title='jobs')
    for name, module in jobs.ALL.items():
        module.add_options(named.add_parser(name, help=summary(module), description=module.__doc__,
                                            formatter_class=argparse.RawDescriptionHelpFormatter))
    told = f'all checks of many cases: known, {", ".join(jobs.OF_CASES)}, one after the other'
    every = named.add_parser('all', help=told, description=told)
    running.add_program(every)
    every.add_argument('--count', help='how many cases of each; each check has a number of its own if not named')
    every.add_argument('--seed', default='1', help='other seeds make other cases')
    every.add_argument('--threads', default='4', help='how many programs run at a time')
    return parser


def check_all(parser: argparse.ArgumentParser, options: argparse.Namespace) -> int:
    """Runs them all, whatever differs; answers the status."""
    words = ['--program', options.program, '--seed', options.seed, '--threads', options.threads]
    words += ['--count', options.count] if options.count else []
    statuses = [check(parser, ['known'])] + [check(parser, [name, *words]) for name in jobs.OF_CASES]
    return max(statuses)


def check(parser: argparse.ArgumentParser, words: list[str]) -> int:
    """Runs the check that these words ask for."""
    options = parser.parse_args(words)
    return check_all(parser, options) if options.job == 'all' else jobs.ALL[options.job].main(options)


def main(words: list[str] | None = None) -> int:
    """Runs the check that the words ask for, those of the command line if not named; answers the status."""
    return check(parser_of_jobs(), words)
