"""The checks, by the names that `tools/check` gives them.

Each module says in its docstring what it compares, and has `add_options(parser)` and `main(options)`, which answers the status: 0
where nothing differs, else 1.
"""
from types import ModuleType

from . import augment, broken, cactus, cactus_text, canonical, components, growth, known, library, listing, memory, mutated, reader, regions

# Those of many cases: they take --program, --count, --seed and --threads.
OF_CASES: dict[str, ModuleType] = {'reader': reader, 'broken': broken, 'cactus': cactus, 'canonical': canonical, 'listing': listing,
                                   'components': components, 'augment': augment, 'growth': growth}
ALL: dict[str, ModuleType] = {'known': known, **OF_CASES, 'memory': memory, 'mutated': mutated, 'regions': regions,
                              'cactus-text': cactus_text, 'library': library}
