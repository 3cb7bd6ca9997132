"""undalisho order."""

import bench

ORDERS = [('1.9', '1.10', -1), ('1.10', '1.9', 1), ('1.9', '1.9.0', 0), ('1.9.0.0', '1.9', 0), ('0', '0.0.0.0', 0),
          ('2', '1.65535.65535', 1), ('65535.65535.6553', '65535.65535.6552', 1), ('1.2.3.4', '1.2.3.5', -1), ('10', '9', 1)]
WORDS = {-1: 'is lower than', 0: 'equals', 1: 'is higher than'}
MALFORMED = ['', '01.2', '1..2', '1.65536', '1.2.3.4.5', '.1', '1.', 'v1', '1.9 ', ' 1', '1,2', '+1', '1.2-3', '00', 'é']


class Order(bench.Case):
    def test_orders(self):
        for a, b, order in ORDERS:
            with self.subTest(a=a, b=b):
                self.assertEqual(self.tool('order', a, b).stdout, f'{a} {WORDS[order]} {b}\n')

    def test_orders_as_json(self):
        for a, b, order in ORDERS:
            with self.subTest(a=a, b=b):
                answer, = self.json('order', a, b)
                self.assertEqual((answer['a'], answer['b'], answer['order']), (a, b, order))

    def test_malformed(self):
        for text in MALFORMED:
            with self.subTest(text=text):
                self.refused(61, 'order', text, '1.0', about=f"'{text}'")

    def test_malformed_second(self):
        self.refused(61, 'order', '1.0', 'x', about="'x'")

    def test_too_long(self):
        self.tool('order', '65535.65535.6553', '1')
        self.refused(61, 'order', '65535.65535.65535', '1')
        self.refused(61, 'order', '1', '1' * 5000)

    def test_dashes_end_the_options(self):
        self.refused(61, 'order', '1.0', '--', '-1')

    def test_json_goes_anywhere(self):
        for words in [('1', '--json', '2'), ('1', '2', '--json')]:
            self.assertEqual(bench.objects(self.tool('order', *words).stdout)[0]['order'], -1)


if __name__ == '__main__':
    bench.main()
