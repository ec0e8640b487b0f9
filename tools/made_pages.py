"""What the scripts share that write a page by the files of the crates."""
import argparse
import os

ROOT = os.path.dirname(os.path.dirname(os.path.abspath(__file__)))


def crates():
    """The names of all crates, in the order of crates.txt."""
    with open(f'{ROOT}/crates.txt', encoding='utf-8') as file:
        return [line.split(':')[0].split()[0] for line in file if ':' in line and not line.startswith('#')]


def is_up_to_date(path, text):
    """Whether a file of the repository has just this text."""
    if not os.path.exists(f'{ROOT}/{path}'):
        return False
    with open(f'{ROOT}/{path}', encoding='utf-8') as file:
        return file.read() == text


def run(path, text):
    """Writes the text to a file of the repository; with --check it only compares. Returns the exit status."""
    parser = argparse.ArgumentParser(description=f'Writes {path}.')
    parser.add_argument('--check', action='store_true', help='write nothing; end with 1 if the page is not up to date')
    if not parser.parse_args().check:
        with open(f'{ROOT}/{path}', 'w', encoding='utf-8') as file:
            file.write(text)
        return 0
    if is_up_to_date(path, text):
        return 0
    print(f'{path} is not up to date')
    return 1
