"""The picture of the tool in README.md: its lines are the demo's, in the demo's order, but for the time of day."""
import re
from pathlib import Path

import bench

README = Path(__file__).resolve().parents[2] / 'README.md'
TIME = re.compile(r'^\d\d:\d\d:\d\d\.\d{3} ')


def untimed(text):
    return [TIME.sub('', line) for line in text.splitlines()]


class Readme(bench.Case):
    def test_picture(self):
        section = re.search(r'^## The tool at work\n(.*?)(?=^## )', README.read_text(), re.DOTALL | re.MULTILINE)[1]
        picture = re.search(r'^```text\n(.*?)^```$', section, re.DOTALL | re.MULTILINE)[1]
        shown = iter(untimed(self.tool('demo').stdout))
        for line in untimed(picture):
            self.assertIn(line, shown, 'the demo does not show this, or not after the lines before it')

    def test_help(self):
        """README's subcommands and exit codes are those of `help`."""
        readme, said = README.read_text(), self.tool('help').stdout
        listed = re.findall(r'^    undalisho (\w+)', readme, re.MULTILINE)
        self.assertEqual(set(listed), set(re.findall(r'^ *undalisho (\w+)', said, re.MULTILINE)))
        codes = [' '.join(re.search(r'Exit codes: [^.]*\.', text)[0].split()) for text in (readme, said)]
        self.assertEqual(*codes)


if __name__ == '__main__':
    bench.main()
