"""`report`, `appeal` and `weights` on small schemes whose tables were written by hand."""
import os
import re
import tempfile
import unittest
import xml.dom.minidom

import inside
import program

NAMES = ('side,name,original,lot 7\nproposer,ann,Ännchen,3\nproposer,ben,"Ben; B.",1\nplaced,city,Dörte,\nproposer,cem,Cem,2\n'
         'proposer,eve,Éve,4\n'
         'reviewer,city,Stadt,\nreviewer,north,Nord,\nreviewer,south,Süd,\nstruck,south,Éve,\n')
INSTANCE = ('stable 1 hospitals\np ann: city north\np ben: city\np cem: north city\np eve: city south\n'
            'r city [1]: ben ann eve # points/km: ben=30/2 ann=20,5/1 eve=1/7\nr north [2]: cem\nr south [0]: eve\nend\n')
# Found by hand: ben has the place of city; north takes cem alone and lists nobody else.
ANSWER = 'answer solve side=proposers\npair ben city\npair cem north\nend\n'
OTHER = 'answer regret\nregret 2\npair ann city\npair cem north\nend\n'


class Case(unittest.TestCase):
    def setUp(self):
        folder = tempfile.TemporaryDirectory()
        self.addCleanup(folder.cleanup)
        self.folder = folder.name
        for name, content in (('i.txt', INSTANCE), ('a.txt', ANSWER), ('b.txt', OTHER), ('names.csv', NAMES)):
            self.put(name, content)

    def put(self, name, content):
        with open(os.path.join(self.folder, name), 'w', encoding='utf-8', newline='') as file:
            file.write(content)

    def text(self, name):
        with open(os.path.join(self.folder, name), encoding='utf-8', newline='') as file:
            return file.read()

    def call(self, tool, *words, stdin=''):
        """What a tool writes."""
        status, text, told = inside.call(tool, *words, stdin=stdin, folder=self.folder)
        self.assertEqual((status, told), (0, ''))
        return text

    def refused(self, tool, *words, stdin='', status=1):
        """What a tool tells that takes a text not."""
        got, text, told = inside.call(tool, *words, stdin=stdin, folder=self.folder)
        self.assertEqual((got, text), (status, ''), told)
        self.assertNotIn('Traceback', told)
        return told


class Report(Case):
    def test_tables(self):
        text = self.call('report', 'i.txt', 'a.txt', '--names', 'names.csv', '--proposers', 'p.csv', '--reviewers', 'r.csv',
                         '--summary', 's.csv')
        self.assertEqual(text, 'choice 1           2  50.0 %\nno place           2  50.0 %\nplaced beforehand  1\nplaces 4, '
                         'taken 3; 1 of 3 full\n')
        self.assertEqual(self.text('p.csv'), 'proposer,choice,reviewer\nÄnnchen,,no place\nBen; B.,1,Stadt\nDörte,,Stadt\n'
                         'Cem,1,Nord\nÉve,,no place\n')
        self.assertEqual(self.text('r.csv'), 'reviewer,places,given beforehand,taken,first choices,last admitted,points,km,lot\n'
                         'Stadt,2,1,2,3,Ben; B.,30,2,1\nNord,2,0,1,1,,,,\nSüd,0,0,0,0,,,,\n')
        self.assertEqual(self.text('s.csv'), 'choice,count,%\nchoice 1,2,50.0\nno place,2,50.0\nplaced beforehand,1,\n')

    def test_beside(self):
        text = self.call('report', 'i.txt', 'a.txt', '--beside', 'b.txt', '--names', 'names.csv', '--moves', 'm.csv', '--summary',
                         's.csv')
        self.assertEqual(text.splitlines()[:3], ['choice 1           2  50.0 %  2  50.0 %',
                                                 'no place           2  50.0 %  2  50.0 %',
                                                 'placed beforehand  1          1'])
        self.assertEqual(text.splitlines()[4:], ['moves 2: gains 1, loses 1', 'choice 1 -> no place  1', 'no place -> choice 1  1'])
        self.assertEqual(self.text('m.csv'), 'proposer,choice before,reviewer before,choice after,reviewer after,moves\n'
                         'Ännchen,,no place,1,Stadt,gains\nBen; B.,1,Stadt,,no place,loses\n')
        self.assertEqual(self.text('s.csv').splitlines()[0], 'choice,count before,% before,count after,% after')

    def test_excel(self):
        """Tables for Excel, with own words and own columns."""
        self.put('own.csv', 'Nr;Klasse;Ort\r\nÄnnchen;4a;Köln\r\nBen; B.;4b;Bonn\r\n'.replace('Ben; B.', '"Ben; B."') +
                 'Dörte;4c;\r\n')
        self.put('orte.csv', 'Ort,Schule\nJülich,Nord\nBonn,Nirgends\nKöln,Nirgends\n')
        self.call('report', 'i.txt', 'a.txt', '--names', 'names.csv', '--proposers', 'p.csv', '--reviewers', 'r.csv', '--summary',
                  's.csv', '--excel', 'de',
                  '--word', 'proposer=Schüler', '--word', 'no place=kein Platz', '--word', 'choice=Wunsch', '--columns', 'own.csv',
                  'klasse',
                  '--columns', 'orte.csv', 'Ort')
        self.assertEqual(self.text('p.csv'), '\ufeffSchüler;Klasse;Wunsch;reviewer\r\nÄnnchen;4a;;kein Platz\r\n"Ben; '
                         'B.";4b;1;Stadt\r\nDörte;4c;;Stadt\r\n'
                         'Cem;;1;Nord\r\nÉve;;;kein Platz\r\n')
        self.assertEqual(self.text('r.csv').splitlines()[:3],
                         ['\ufeffreviewer;Ort;places;given beforehand;taken;first choices;last admitted;points;km;lot',
                          'Stadt;;2;1;2;3;"Ben; B.";30;2;1', 'Nord;Jülich;2;0;1;1;;;;'])
        self.assertEqual(self.text('s.csv'), '\ufeffWunsch;count;%\r\nWunsch 1;2;50,0\r\nkein Platz;2;50,0\r\nplaced '
                         'beforehand;1;\r\n')

    def test_picture(self):
        """A picture that any reader of SVG takes, with each count and share, and own words escaped."""
        self.call('report', 'i.txt', 'a.txt', '--names', 'names.csv', '--svg', 'c.svg', '--title', 'A & B <2027>')
        root = xml.dom.minidom.parseString(self.text('c.svg').encode()).documentElement
        texts = [it.firstChild.data for it in root.getElementsByTagName('text')]
        self.assertEqual(texts, ['A & B <2027>', '0', '1', '2', '2', '50.0 %', '1', '2', '50.0 %', 'no place', 'choice'])
        self.call('report', 'i.txt', 'a.txt', '--beside', 'b.txt', '--svg', 'c.svg')
        root = xml.dom.minidom.parseString(self.text('c.svg').encode()).documentElement
        self.assertEqual(sum(it.getAttribute('fill') == '#dd8452' for it in root.getElementsByTagName('rect')), 3)
        heights = [float(it.getAttribute('height')) for it in root.getElementsByTagName('rect')
                   if it.getAttribute('fill') == '#2b6cb0'][1:]
        self.assertEqual(heights, [240, 240])

    def test_refused(self):
        self.put('own.csv', 'a,b\nx,y\n')
        self.put('twice.csv', 'a,b\nann,1\nann,2\n')
        for words, what in ((['i.txt', 'i.txt'], 'no answer of the program'),
                            (['i.txt', 'a.txt', '--columns', 'names.csv', 'klasse'], 'there is no column'),
                            (['i.txt', 'a.txt', '--columns', 'own.csv', 'b'], 'no column has names of proposers or reviewers'),
                            (['i.txt', 'a.txt', '--columns', 'twice.csv', 'b'],
                             'twice.csv:3: \'ann\' has a row already, on line 2')):
            self.assertIn(what, self.refused('report', *words))
        for answer, what in (('pair ann north', 'ann can\'t have a place at north'), ('pair ben city\npair ann city', 'a.txt:3: '),
                             ('pair zoe city', 'zoe can\'t have'), ('none', 'no such matching')):
            self.put('a.txt', f'answer solve side=proposers\n{answer}\nend\n')
            self.assertIn(what, self.refused('report', 'i.txt', 'a.txt'))
        self.put('a.txt', 'answer pairs\nall ann city\nend\n')
        self.assertIn('isn\'t one matching', self.refused('report', 'i.txt', 'a.txt'))
        self.put('a.txt', 'answer solve\nend\n')
        self.assertIn('roommates have no places', self.refused('report', '-', 'a.txt', stdin='stable 1 roommates\nend\n'))
        for words, what in ((['--moves', 'm.csv'], '--beside'),
                            (['--proposers', 'b.txt', '--beside', 'b.txt'], 'b.txt: it would be written over'),
                            (['--word', 'school=Schule'], 'is no WORD=OWN'), (['--excel', 'xx'], 'invalid choice')):
            self.put('b.txt', OTHER)
            self.put('a.txt', ANSWER)
            self.assertIn(what, self.refused('report', 'i.txt', 'a.txt', *words, status=2))


class Appeal(Case):
    def letter(self, who, where, *more):
        return self.call('appeal', 'i.txt', *(more or ['a.txt']), '--names', 'names.csv', who, where).splitlines()

    def test_letters(self):
        more = '1 more place was given away beforehand'
        self.assertEqual(self.letter('Ännchen', 'Stadt'), [
            'choice 1 is Stadt; got no place', '1 place, 1 taken; the last one admitted has 30 points, km 2 and lot 1', more,
            'Ännchen has 20,5 points, km 1 and lot 3: number 2 of 3; the last one admitted is number 1',
            'the one admitted comes before Ännchen'])
        self.assertEqual(self.letter('Éve', 'Stadt')[-2],
                         'Éve has 1 point, km 7 and lot 4: number 3 of 3; the last one admitted is number 1')
        self.assertEqual(self.letter('Ännchen', 'Nord'),
                         ['choice 2 is Nord; got no place', 'Nord doesn\'t list Ännchen, so neither can have the other'])
        self.assertEqual(self.letter('Cem', 'Stadt'), ['choice 2 is Stadt; got Nord, choice 1',
                                                       'choice 1 comes before choice 2, so Cem has what stands higher on the own '
                                                       'list'])
        self.assertEqual(self.letter('Cem', 'Nord'), ['choice 1 is Nord; Cem has a place there'])
        self.assertEqual(self.letter('Ben; B.', 'Nord'), ['Nord isn\'t on the list of Ben; B.; got Stadt, choice 1'])
        self.assertEqual(self.letter('Dörte', 'Stadt'), ['Dörte was placed beforehand, at Stadt'])
        self.assertEqual(self.letter('Dörte', 'Nord'), ['Dörte was placed beforehand, at Stadt, and not at Nord'])
        self.assertEqual(self.letter('Éve', 'Süd'),
                         ['choice 2 is Süd; got no place', '0 places, 0 taken', 'Éve has lot 4: number 1 of 1'])
        self.put('i.txt', INSTANCE.replace('city south', 'city').replace('south [0]: eve', 'south [0]:'))
        self.assertEqual(self.letter('Éve', 'Süd'), ['Süd was struck beforehand from the list of Éve; got no place'])

    def test_blocks(self):
        """An answer that isn't stable is said to be none."""
        self.assertEqual(self.letter('Ben; B.', 'Stadt', 'b.txt')[-2:], ['0 of the 1 admitted come before Ben; B.',
                         'Ben; B. and Stadt would both rather have one another: the answer isn\'t stable'])
        self.put('b.txt', 'answer regret\nregret 1\npair ben city\nend\n')
        self.assertEqual(self.letter('Cem', 'Nord', 'b.txt'),
                         ['choice 1 is Nord; got no place', '2 places, 0 taken', 'Cem has lot 2: number 1 of 1',
                         '2 places are free', 'Cem and Nord would both rather have one another: the answer isn\'t stable'])

    def test_cut(self):
        """It refuses to say of a list that was cut that somebody isn't listed."""
        self.put('i.txt', INSTANCE.replace(': ben ann eve', ': ben'))
        self.assertIn('i.txt: the list of Stadt was cut before Ännchen',
                      self.refused('appeal', 'i.txt', 'a.txt', '--names', 'names.csv', 'Ännchen', 'Stadt'))

    def test_names(self):
        for words, what in ((['Ännche', 'Stadt'], 'there is no proposer \'Ännche\'; is \'Ännchen\' meant?'),
                            (['Cem', 'stadt'], 'is \'Stadt\' meant?'),
                            (['Cem', 'Wald'], 'there is no reviewer \'Wald\'\n')):
            self.assertIn(what, self.refused('appeal', 'i.txt', 'a.txt', '--names', 'names.csv', *words))
        self.assertEqual(self.call('appeal', 'i.txt', '-', 'cem', 'north', stdin=ANSWER),
                         'choice 1 is north; cem has a place there\n')
        self.assertEqual(inside.call('appeal', '-', '-', 'a', 'b')[0], 2)


class Weights(Case):
    def test_lines(self):
        wanted = {('proposers',): '1 1 1 1', ('reviewers',): '2 1 1 3', ('both', '--squares'): '5 2 2 10'}
        for words, weights in wanted.items():
            text = self.call('weights', 'i.txt', '--side', *words)
            lines = [f'weight {pair} {it}' for pair, it in zip(('ann city', 'ben city', 'cem north', 'eve city'), weights.split())]
            lines.append(f'weight eve south {({"proposers": 2, "reviewers": 1, "both": 5}[words[0]])}')
            self.assertEqual(text, INSTANCE.replace('\nend\n', '\n' + '\n'.join(lines) + '\nend\n'))

    def test_refused(self):
        for text, what in (('stable 1 marriage\np a: b\nr b: a\nweight a b 3\nend\n', 'it has weights already'),
                           ('stable 1 roommates\nend\n', 'have no weights'),
                           ('stable 1 marriage\n', '(MissingEnd)')):
            self.assertIn(what, self.refused('weights', '--side', 'both', stdin=text))
        self.assertEqual(inside.call('weights', 'i.txt', folder=self.folder)[0], 2)

    def test_too_long(self):
        """Names of 60 letters: 129,500 weight lines have 17,185,700 bytes, and the text without them has 15,845,102."""
        p, r = [f'p{i}'.ljust(60, '_') for i in range(350)], [f'r{i}'.ljust(60, '_') for i in range(370)]
        text = '\n'.join(['stable 1 marriage', *(f'p {it}: {" ".join(r)}' for it in p), *(f'r {it}: {" ".join(p)}' for it in r),
                          'end', ''])
        self.assertIn('the text would have 33,030,802 bytes, and 16,777,216 is the most',
                      self.refused('weights', '--side', 'proposers', stdin=text))

    @unittest.skipUnless(program.PATH, 'no program')
    def test_conditions(self):
        """With a forbidden pair the pupils' ranks lead to the best matching that is allowed, between both best ones."""
        cycle = 'stable 1 marriage\np m1: a b c\np m2: b c a\np m3: c a b\nr a: m2 m3 m1\nr b: m3 m1 m2\n' \
            'r c: m1 m2 m3\nforbid m1 a\nend\n'
        weighed = self.call('weights', '--side', 'proposers', stdin=cycle)
        answer = program.ask(weighed, 'weight', 'by=given')[1]
        self.assertEqual(re.findall('pair .*|total .*', answer), ['total 6', 'pair m1 b', 'pair m2 c', 'pair m3 a'])


if __name__ == '__main__':
    unittest.main()
