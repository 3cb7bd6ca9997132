"""The tool's words for the numbers of undalisho.h: each refusal and each reason has its own, with what to do next."""
import re
from pathlib import Path

import bench

ROOT = Path(__file__).resolve().parents[2]
ENUMS = r'/\* The (?:numbers of refusals|reasons above)\.[^\n]*\*/\nenum \{(.*?)\}'
ROW = r'\{(UND_\w+),\s+"([^"]+)",\s+((?:"[^"]+"\s*)+)\}'


class Words(bench.Case):
    def test_every_number(self):
        header, words = (ROOT / 'include/undalisho.h').read_text(), (ROOT / 'tool/words/words.c').read_text()
        names = [name for enum in re.findall(ENUMS, header, re.DOTALL) for name in re.findall(r'UND_\w+', enum)]
        rows = [row for row in re.findall(ROW, words) if row[0] in names]
        self.assertEqual(sorted(name for name, _, _ in rows), sorted(names))
        self.assertEqual(len({what for _, what, _ in rows}), len(names))
        self.assertIn('UND_OUT_OF_FLOW', names)


if __name__ == '__main__':
    bench.main()
