#!/usr/bin/env python3
"""Makes docs/abilene-report.png: the top of the report on the Abilene backbone, with the minimum cut around the West picked.

usage: report_picture.py

It takes Chromium. The program is the one that the variable MINCUT names, or tools/plain_mincut.py.
"""
import base64
import os
import sys
import tempfile

from made_pages import ROOT

sys.path[:0] = [f'{ROOT}/python', f'{ROOT}/python/tests']
os.environ.setdefault('MINCUT', f'{ROOT}/tools/plain_mincut.py')
import chromium  # noqa: E402  (of the tests of the Python package)
from mincut_graph.command import main as mincut_graph  # noqa: E402

PICTURE = 'docs/abilene-report.png'
WEST = 'Denver, Los Angeles, Seattle, Sunnyvale'
WIDTH = 1280
PICK = '''[...document.querySelectorAll('tr.place')].find((row) => row.innerText.includes(%r)).click(); window.scrollTo(0, 0)'''
BOTTOM = "Math.max(...[...document.querySelectorAll('figure')].map((part) => part.getBoundingClientRect().bottom)) + 12"


def main():
    if chromium.PATH is None:
        sys.exit('report_picture: Chromium is not on the path')
    with tempfile.TemporaryDirectory() as folder:
        path = f'{folder}/abilene.html'
        mincut_graph(['report', f'{ROOT}/examples/abilene.graphml', '-q', '-o', path])
        page = chromium.Page(path)
        page.size(WIDTH, 1000)
        page.run(PICK % WEST)
        page.frames()
        height = page.run(BOTTOM)
        clip = {'x': 0, 'y': 0, 'width': WIDTH, 'height': height, 'scale': 1}
        png = base64.b64decode(page.ask('Page.captureScreenshot', format='png', clip=clip, captureBeyondViewport=True)['data'])
        page.close()
    with open(f'{ROOT}/{PICTURE}', 'wb') as file:
        file.write(png)


if __name__ == '__main__':
    main()
