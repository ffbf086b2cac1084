'use strict';
// Ten exercises, from easy to harder. Records and answers have their marks drawn; `codes` are the lines that a learner begins with.
const exercises = [
    {
        title: 'Shelf numbers',
        teaches: ['T'],
        task: 'Attribute 1 holds the article numbers of a shop: two letters for the group, four digits for the shelf, two digits for the colour. '
            + 'Show only the shelf of each article: for the first one that is 4711. The section on T in the reference helps.',
        record: 'STK1^AX471102]BR082315]CM190044',
        at: '1,0,0',
        codes: [''],
        solution: ['T3,4'],
        answer: '4711]0823]1900',
    },
    {
        title: 'Labels in capitals',
        teaches: ['MCA', 'MCU'],
        task: 'Attribute 1 holds stock numbers as different people typed them. A label shows only the letters, and all of them as capitals: AXB for the '
            + 'first. Write two codes, each on a line of its own; look at the MC codes in the reference.',
        record: 'STK2^ax-4711-b]Qr-82-cd]m-190-Z',
        at: '1,0,0',
        codes: [''],
        solution: ['MCA', 'MCU'],
        answer: 'AXB]QRCD]MZ',
    },
    {
        title: 'Post codes that cannot be right',
        teaches: ['L'],
        task: 'Attribute 1 holds the post codes of five members. A right one has five digits; one with fewer or more was mistyped, and nothing should be '
            + 'shown in its place. See which form of L does it.',
        record: 'MEM3^90210]9021]10115]100115]75008',
        at: '1,0,0',
        codes: [''],
        solution: ['L5,5'],
        answer: '90210]]10115]]75008',
    },
    {
        title: 'Area codes',
        teaches: ['G'],
        task: 'Attribute 2 holds telephone numbers: country, area and line, parted by dashes, and each part may be short or long. Show the area of each '
            + 'number: for the first one that is 20. The section on G helps.',
        record: 'MEM4^Ann]Lee]Max^44-20-5551234]1-212-5550199]353-1-5557788',
        at: '2,0,0',
        codes: [''],
        solution: ['G1-1'],
        answer: '20]212]1',
    },
    {
        title: 'Books due back',
        teaches: ['D'],
        task: 'Attribute 1 holds the books that a reader has at home, attribute 2 the day when each is due: two days for the second book, which has two '
            + 'volumes. Show these days as month, day and year, the year with two digits, parted by strokes: 06/24/25 for the first. The section on D says '
            + 'how days are counted and shown.',
        record: 'LIB5^Emma]Dracula]Ulysses^20995]21002\\21016]21166',
        at: '2,0,0',
        codes: [''],
        solution: ['D2/'],
        answer: '06/24/25]07/01/25\\07/15/25]12/12/25',
    },
    {
        title: 'A price list that lines up',
        teaches: ['MR'],
        task: 'Attribute 1 holds prices in cents; the third article has two sizes, each with its own price. Show them in dollars, with a dollar sign and a '
            + 'comma at the thousands, and each of them 10 bytes wide with the blanks in front: the first is four blanks and $19.99. The section on MR '
            + 'helps; its pieces have a fixed order.',
        record: 'CAT6^1999]125000]4550\\99',
        at: '1,0,0',
        codes: [''],
        solution: ['MR2,$(#10)'],
        answer: '    $19.99] $1,250.00]    $45.50\\     $0.99',
    },
    {
        title: 'Cheques nobody can add to',
        teaches: ['ML'],
        task: 'Attribute 2 holds amounts in cents that are to be printed on cheques. So that nobody can write more digits behind an amount, the rest of its '
            + '12 bytes is filled with stars: 1,250.00**** is the first. Which piece of ML does the filling?',
        record: 'PAY7^Ann]Lee]Max^125000]98050]7',
        at: '2,0,0',
        codes: [''],
        solution: ['ML2,(*12)'],
        answer: '1,250.00****]980.50******]0.07********',
    },
    {
        title: 'A printer that speaks hex',
        teaches: ['MY', 'MCU', 'MX'],
        task: 'Attribute 1 holds the names of goods as a label printer sends them: in hex, two hex digits for each letter. The printer wants them back in '
            + 'capitals, and again in hex: the first one spells Milk, so MILK is wanted, which is 4D494C4B. Write one code on a line and watch what each '
            + 'line gives; MX and MY stand next to each other in the reference.',
        record: 'STK8^4D696C6B]546561]536F7570',
        at: '1,0,0',
        codes: [''],
        solution: ['MY', 'MCU', 'MX'],
        answer: '4D494C4B]544541]534F5550',
    },
    {
        title: 'Line totals',
        teaches: ['F', 'MR'],
        task: 'Attribute 1 of an invoice holds prices in cents, attribute 2 the quantities in step with them, and attribute 3 the postage in cents, which '
            + 'stands there once and is added to every price times quantity. Show what each comes to in dollars, with a dollar sign: $51.50 for the first. '
            + 'Look at F and at the first elms of F, which say how one number can serve all values and subvalues.',
        record: 'INV9^1250]399\\450^4]10\\2^150',
        at: '1,0,0',
        codes: [''],
        solution: ['F;1;2;*;3RR;+', 'MR2$'],
        answer: '$51.50]$41.40\\$10.50',
    },
    {
        title: 'Refused, and refused again',
        teaches: ['F', 'refusals'],
        task: 'A class goes on a trip: attribute 1 holds what the museum, the bus and the lunch cost, in cents, and attribute 2 the number of pupils, once '
            + 'for all. The two codes should show what each costs one pupil, $9.00 for the museum, but they are refused. Read what the refusal says and '
            + 'mend the code; if another refusal comes, read that one too.',
        record: 'TRIP10^22500]45000]31250^25',
        at: '1,0,0',
        codes: ['F;1;/;2', 'MR2$'],
        solution: ['F;1;2R;/', 'MR2$'],
        answer: '$9.00]$18.00]$12.50',
    },
];
