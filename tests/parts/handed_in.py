"""Hand-ins as students write them, by the exercise, its seed, and how many parts are right."""

HANDED = {
    (15, 1, 3): [
        "a. not sure, but 5100 ns\nb. 51, not 50\nc. 250000, rather than 25000",
        'Ada Lovelace\n15.\na) EAT = (1-p)*100 + p*(5ms+100ns) = 5100ns\nb) 5100/100 = 51x slower\n'
        'c) 5,000,000/n <= 20 => n >= 250,000\n',
        'a. 0.1 + 5 = 5.1 µs\nb. 51\nc. 1 page fault in 250000 accesses',
        "a: effective access time = 100ns + 1/1000 * 5,000,000ns = 5,100 ns\nb: It's 51 times slower.\n"
        'c: at most 1 in 250,000 accesses may be a page fault',
        '(a) 100 ns + 0.001 * 5 ms = 100 ns + 5 µs = 5.1 µs\n(b) 5.1 µs / 100 ns = 51\n(c) 20 ns = 5 ms / n  ->  n = 250000',
        'Question 15\npart (a)\n5100 ns\npart (b)\n51 times\npart (c)\none access in every 250000',
        '5100ns; 51; 250k',
        'a)5100 b)51 c)250000',
        'a 5100\nb 51\nc 250000',
        'A: 5100 nS\nB: 51.0\nC: 1/250,000',
        '5,100.00 nanoseconds\n5100% \n1 out of 250 000',
        'a. ~5100 ns\nb. ~51x\nc. ~250000',
        'a. 5100 ns per access\nb. a factor of 51\nc. every 250000th access',
        'a. 5.1 * 10^3 ns\nb. 51/1\nc. 2.5 * 10^5',
        'a. 5.1×10³ ns\nb. 51:1\nc. 2.5e5',
        'a. $5100\\,\\text{ns}$\nb. $51$\nc. $250000$',
        'a. 5100 (ns)\nb. 51 (times)\nc. 250000 (accesses)',
        'a. The effective access time would be 5100.00 nanoseconds because 1 in 1000 accesses costs 5 ms more.\n'
        "b. That's 51 times slower than with no page faults.\n"
        'c. Memory is slower by 20 % at most if one access in 250000 is a page fault.',
        'Exercise 15 a. 5100 ns\nExercise 15 b. 51\nExercise 15 c. 250000',
        'a. = 5100ns\nb. = 51\nc. = 250000',
        '1) 5100 ns\n2) 51\n3) 250000',
        'i) 5100 ns\nii) 51\niii) 250000',
        'a. 5100 ns\n\nb. 51\n\n\nc. 250000\n\n',
        'Hi, here are my answers:\na. 5100 ns\nb. 51\nc. 250000\nBest, Ada',
        'a. m + f/n = 100 + 5000000/1000\n= 5100 ns\nb. 5100 / 100\n= 51\nc. 100*0.2 = 20\n5000000/20\n= 250000',
        'a. 5100 ns\nb. 51\nc. 4e-6',
        'a\t5100\nb\t51\nc\t250000',
        'a,5100\nb,51\nc,250000',
        '"a","5100"\n"b","51"\n"c","250000"',
        'a. **5100 ns**\nb. *51*\nc. __250000__',
        '- a) 5100 ns\n- b) 51\n- c) 250000',
        'a.) 5100ns, b.) 51, c.) 250000',
        'a-> 5100\nb-> 51\nc-> 250000',
        'a => 5100 ns\nb => 51\nc => 250000',
        'Name:Ada Lovelace\nMatr.-Nr. 1234567\nExercise 15\n a .  5100 ns\n b .  51\n c .  250000',
        'a. Five thousand..., i.e. 5100 ns\nb. 51 times\nc. 250000',
        'a. EAT=5100ns;b. 51;c. 250000',
        'Aufgabe 15\na) 5100,00 ns\nb) 51,00\nc) 250.000',
        'a: 5.1us\nb: 51.00 times slower than memory\nc: 1 : 250000',
        'a. 5.100 µs\nb. 5100%\nc. 0.0004 %',
        'a. 5.1 microsecs\nb. x51\nc. one out of 250 thousand',
        'Solution:\n(a): 5100 ns.\n(b): 51.\n(c): 250000.',
        'a. t = 5100 ns\nb. r = 51\nc. n ≥ 250000',
        'a. (100 + 5000) ns\nb. 51 = 5100/100\nc. n=5*10^6/20=250000',
        'a. 5100 ns [100 + 5000]\nb. 51 [5100/100]\nc. 250000 [5e6/20]',
        '15 a. 5100 ns\n15 b. 51\n15 c. 250000',
        '15a: 5100 ns, 15b: 51, 15c: 250000',
        'a. 5100 ns; b. 51; c. 1/250000 = 0.0004%',
        'a is 5100 ns\nb is 51\nc is 250000',
        'a. 0.0051 ms\nb. 51\nc. 2.5*10^5',
        'a. 5100ns.\nb. 51.\nc. 250000.',
        "a. 5'100 ns\nb. 51\nc. 250'000",
        'a. 5100 ns b. 51 c. 250000',
        '(a) 5100 ns, (b) 51, (c) 250000',
        '  a)   5100\r\n  b)   51\r\n  c)   250000\r\n',
        'a. The EAT is 100 ns + (1/1000) x 5 ms = 5.1 us\nb. It is 51 times slower\nc. 5 ms / 20 ns = 250000',
        'a. 5100 nsec\nb. 51-fold\nc. ≥250000',
        'a. 5100 ns (~5.1 µs)\nb. ≈ 51\nc. >= 250000',
        'a. 5100 ns, since 1 in 1000 faults\nb. 51, as 5100/100 = 51\nc. 250000, because 5000000/20 = 250000',
    ],
    (15, 1, 0): [
        "a. 5000 ns, not 5100 ns\nb. not 51\nc. I am not sure, 1 in 25000",
        'a. 5100 us\nb. 50\nc. 25000',
        'a. 5.1 ms\nb. 0.51\nc. 1 in 200000',
        'a. 5000 ns\nb. 50x\nc. 20',
        '',
        "I don't know",
        'a. ?\nb. ?\nc. ?',
        'a. 5100 s',
        '5 100 ms; 5.1; 2500000',
        'a. -5100 ns',
        'a. 5100 KiB',
        'a. 100 ns',
        'a. not 5100 ns',
        'a. 5100 or 5000 ns',
        'a. 5,1 ms',
    ],
    (14, 1, 2): [
        "a. 5, 3, 4\nb. not sure, thrashing\nc. not sure, none",
    ],
    (19, 1, 5): [
        'a) 16 entries x 4 KiB = 64KiB\nb) 68/4 = 17 pages\nc) 17 pages x 5 passes = 85 misses\n'
        'd) 1 - 85/87040 = 99.902%\ne) 68/32 = 2.125 -> 3 misses',
        'a. 64KB\nb. seventeen\nc. 85 TLB misses (17 * 5)\nd. 99,902 %\ne. three',
        'a. The TLB reaches 64 KiB\nb. The array has 17 pages\nc. 85 accesses miss in the TLB\n'
        'd. 99.902 % of the accesses hit\ne. 3 accesses miss',
        '64 KiB\n17\n85\n99.902\n3',
        '64 kb, 17, 85, 99.902%, 3',
        'a. 65536 B\nb. 17 pages of 4 KiB\nc. 85 of 87040\nd. 86955/87040\ne. 3',
        'a. 64k\nb. 17p\nc. 85 misses, 86955 hits\nd. hit ratio: 0.99902\ne. 3',
        'a. 16*4K\nb. 17.0\nc. 5*17\nd. 99.90234375 percent\ne. ceil(68/32) = 3',
    ],
    (20, 1, 6): [
        'a) 4096/4 = 1024 entries\nb) 29-10-12 = 7 bits\nc) root = 0x36, table = 0x297, offset = 0x8D5\nd) 4 tables\n'
        'e) 2^7*4 + 4*4096 = 16896 bytes\nf) 2^17 * 4 = 512 KiB',
        'a. 2^10\nb. 7\nc. 36 | 297 | 8D5\nd. four\ne. 16.5 KB\nf. 0.5 MB',
        'a. 1Ki\nb. seven bits\nc. (0x36, 0x297, 0x8d5)\nd. 4\ne. 512 + 16384\nf. 2^19 bytes',
        'a. 1024\nb. 7\nc. root index: 54, table index: 663, offset: 2261\nd. It needs 4 tables of the last level\n'
        'e. 16,896\nf. 524,288',
        '1024; 7; 0x36, 0x297, 0x8D5; 4; 16896; 524288',
        'a. 1024 PTEs\nb. 7 bits (bits 28 to 22)\nc. 0b110110 0b1010010111 0b100011010101\nd. 4 page tables\n'
        'e. 16896B\nf. 524288B',
    ],
    (3, 11, 3): [
        'a. 64 KiB\nb. 526 accesses; 107 misses\nc. 72.34 ns',
        'a) 16 × 4 KiB\nb) 107 of the 526 accesses miss\nc) 72.34 ns',
        'a: 64K\nb: accesses 526 / misses 107\nc: 72.34 ns',
        'a: 64K\nb: 526 total, 107 of them miss\nc: 72.34 ns',
        'a. 64\nb. 526 page accesses, 107 TLB misses\nc. 72.34 ns',
    ],
    (14, 1, 3): [
        'a) WS0 = 5, WS1 = 3, WS2 = 4\nb) Sum 12 <= 13 so they fit\nc) none',
        'a. 5,3,4\nb. No thrashing, they fit\nc. N/A',
        'a. 5 pages, 3 pages, 4 pages\nb. fits\nc. -',
        'a. P0: 5, P1: 3, P2: 4\nb. It fits (12 of 13 frames)\nc. no process needs to be stopped',
        'a. |W0|=5, |W1|=3, |W2|=4\nb. yes they fit\nc. none needed',
        'a. process 0 has 5, process 1 has 3, process 2 has 4\n'
        'b. They all fit together, so the machine does not thrash.\nc. Does not apply because it does not thrash',
        'a. 5 (A B D E G), 3 (A B C), 4 (A B F G)\nb. fit\nc. none',
        'a. 5\n3\n4\nb. fit\nc. nobody',
        'a. 5 / 3 / 4; b. fit; c. n.a.',
        'a. 5 + 3 + 4 = 12\nb. 12 < 13, fits\nc. not needed',
        'a. W(0)=5 W(1)=3 W(2)=4\nb. ok, fits\nc. no need to stop any',
        'a. 5 for process 0, 3 for process 1, 4 for process 2\nb. fit\nc. none of them',
    ],
    (14, 3, 3): [
        'a. 2, 5, 3\nb. It thrashes, 10 > 8\nc. any of the three',
        "a. 2, 5, 3\nb. doesn't fit => thrashing\nc. 0, 1 or 2",
        'a. 2, 5, 3\nb. No, they do not fit and the machine thrashes\nc. P0, P1, P2',
        'a. 2, 5, 3\nb. not enough frames\nc. each one',
        'a. 2, 5, 3\nb. thrash\nc. 0/1/2',
        'a. 2, 5, 3\nb. thrashes!\nc. all three processes',
        'a. 2, 5, 3\nb. the sum is larger than the number of frames, so it thrashes\nc. process 0 or process 1 or process 2',
    ],
    (8, 1, 7): [
        'a. 9 b. 9 c. 10 d. 8 e. 1 2 5 f. 1 2 5 g. 1 2 5',
        'FIFO: 9\nCLOCK: 9\nLRU: 10\nOPT: 8\nFIFO: 1,2,5\nCLOCK: 1,2,5\nLRU: 5,1,2',
        'a. FIFO: 9 misses\nb. CLOCK: 9 misses\nc. LRU: 10 misses\nd. OPT: 8 misses\ne. {1,2,5}\nf. {2,5,1}\ng. [1 2 5]',
        'a) 9 page faults b) 9 page faults c) 10 page faults d) 8 page faults e) 1,2,5 f) 1,2,5 g) 1,2,5',
        'a. 9/14\nb. 9/14\nc. 10/14\nd. 8/14\ne. 125\nf. 125\ng. 125',
        'a. 9 out of 14\nb. nine\nc. ten\nd. eight\ne. 5 2 1\nf. pages 1, 2 and 5\ng. 1;2;5',
    ],
    (2, 1, 6): [
        'a. 0x20F / 0x104 / 0xC10 -> 0x008BFC10\nb. page fault (no user bit)\nc. 0xAFF16954 (superpage)\n'
        'd. page fault, V=0\ne. 6AC9EC\nf. 0x0081B9BC',
        'a: VPN1=0x20F, VPN0=0x104, off=0xC10 => PA 0x8BFC10\nb: VPN1=0x20F, VPN0=0x332, off=0xF8C => fault: user\n'
        'c: 0xAFF1_6954\nd: invalid entry, page fault\ne: 0x6ac9ec\nf: 0x81b9bc',
        '0x008BFC10\npage fault, user\n0xAFF16954\npage fault, invalid\n0x006AC9EC\n0x0081B9BC',
        'a. physical address 0x008BFC10\nb. page fault because U is not set\nc. It leads to 0xAFF16954.\n'
        'd. page fault because the PTE is invalid\ne. 0x006AC9EC\nf. 0x0081B9BC',
        'a) PPN 0x8BF + offset 0xC10 = 0x8BFC10\nb) fault - user page only for supervisor\nc) AFF16954\n'
        'd) fault - invalid\ne) 006AC9EC\nf) 0081B9BC',
    ],
    (6, 1, 5): [
        'event 3: 16 one\nevent 4: 524224 one\nevent 5: 16 zero\nevent 7: 16 one\nevent 8: victim 16',
        '3: page 16, one\n4: page 524224, one\n5: page 16, zero\n7: page 16, one\n8: page 16, victim',
        '1. 16 one\n2. 524224 one\n3. 16 zero\n4. 16 one\n5. 16 victim',
        '16 - one\n524224 - one\n16 - zero\n16 - one\n16 - victim',
        'page 16: one\npage 0x7FFC0: one\npage 0x10: zero\npage 16: one\npage 16: victim',
        '16=1,524224=1,16=0,16=1,victim=16',
        'sweep: 0/16 one\nsweep: 0/524224 one\nsweep: 0/16 zero\nsweep: 0/16 one\nsweep: victim 0/16',
        '16 (one)\n524224 (one)\n16 (zero)\n16 (one)\n16 (victim)',
        'one (16)\none (524224)\nzero (16)\none (16)\nvictim (16)',
    ],
    (17, 1, 3): [
        'a. 40 frames (130 > 123)\nb. 129 page-ins (64+64+1)\nc. 65 page-ins, each page once',
        'a) only 40\nb) 2*64+1 = 129\nc) 65',
        '40; 129; 65',
    ],
    (18, 1, 8): [
        'a. 4 pages (text + 3)\nb. 3\nc. 326/4 = 81.5\nd. 652/8 = 81.5\ne. 978/12 = 81.5\nf. 1304/176 = 7.4\n'
        'g. 1630/329 = 4.95\nh. 4 processes',
        'a 4\nb 3\nc-g: 81.5, 81.5, 81.5, 7.4, 5.0\nh 4',
        '4\n3\n81.5\n81.5\n81.5\n7.4\n5.0\n4',
        'a) 4, b) 13/4 = 3, c) 81.5 instr/page-in, d) 81.5, e) 81.5, f) 7.41, g) 4.95, h) with 4',
    ],
    (5, 1, 14): [
        '1 refused\n2 absent 16\n3 mapped\n4 ran\n5 ran\n6 ran\n7 absent 524226\n8 refused\n9 mapped\n10 ran\n'
        '11 absent 524225\n12 absent 524225\n13 absent 524225\n14 absent 524225',
        '1. refused 4 (page 99 does not exist)\n2. absent 16\n3. mapped\n4. ran\n5. ran\n6. ran\n7. absent 0x7FFC2\n'
        '8. refused 4, already mapped\n9. mapped\n10. ran\n11. absent 0x7FFC1\n12. absent 0x7FFC1\n13. absent 0x7FFC1\n'
        '14. absent 0x7FFC1',
        'pagein 0 99 -> refused\nstep 0 0 -> page fault on page 16\npagein 0 16 -> mapped\nstep 0 0 -> runs\n'
        'step 0 0 -> runs\nstep 0 0 -> runs\nstep 0 0 -> page fault on page 524226\n'
        'pagein 0 16 -> refused because it is already in a frame\npagein 0 524226 -> mapped\nstep 0 0 -> runs\n'
        'step 0 0 -> page fault on page 524225\nstep 0 0 -> page fault on page 524225\n'
        'step 0 0 -> page fault on page 524225\nstep 0 0 -> page fault on page 524225',
        'refused, absent 16, mapped, ran, ran, ran, absent 524226, refused, mapped, ran, absent 524225, '
        'absent 524225, absent 524225, absent 524225',
        '| 1 | pagein 0 99 | refused 4 |\n| 2 | step 0 0 | absent 16 |\n| 3 | pagein 0 16 | mapped |\n'
        '| 4 | step 0 0 | ran |\n| 5 | step 0 0 | ran |\n| 6 | step 0 0 | ran |\n| 7 | step 0 0 | absent 524226 |\n'
        '| 8 | pagein 0 16 | refused 4 |\n| 9 | pagein 0 524226 | mapped |\n| 10 | step 0 0 | ran |\n'
        '| 11 | step 0 0 | absent 524225 |\n| 12 | step 0 0 | absent 524225 |\n| 13 | step 0 0 | absent 524225 |\n'
        '| 14 | step 0 0 | absent 524225 |',
        'Refused\nAbsent 16\nMapped\nRan\nRan\nRan\nAbsent 524226\nRefused\nMapped\nRan\nAbsent 524225\nAbsent 524225\n'
        'Absent 524225\nAbsent 524225',
        '- refused\n- absent (page 16)\n- mapped\n- ran\n- ran\n- ran\n- absent (page 524226)\n- refused\n- mapped\n'
        '- ran\n- absent (page 524225)\n- absent (page 524225)\n- absent (page 524225)\n- absent (page 524225)',
    ],
    (7, 1, 12): [
        '13 not yet\n14 not yet\n15 noticed\n16 noticed\n17 noticed\n18 absent 16\n19 noticed\n20 absent 16\n'
        '21 absent 16\n22 absent 16\n23 freed\n24 absent 16',
        'not yet (both harts have a translation)\nnot yet\nnoticed\nnoticed\nnoticed\nabsent\nnoticed\nabsent\nabsent\n'
        'absent\nfreed\nabsent',
        'collect 0 16 = not yet\ncollect 0 16 = not yet\nnotice 0 0 = noticed\nnotice 0 0 = noticed\n'
        'notice 0 1 = noticed\nstep 0 0 = page fault\nnotice 0 1 = noticed\nstep 0 0 = page fault\n'
        'step 0 0 = page fault\nstep 0 1 = page fault\ncollect 0 16 = frame is freed\nstep 0 1 = page fault',
    ],
    (21, 13, 7): [
        'a) invalid\nb) 0xBE38\nc) 0x74A9\nd) 0xF0F4\ne) 0x163C\nf) 64 bytes\ng) 32 bytes',
        'a. fault (valid bit is 0)\nb. BE38\nc. 74A9\nd. F0F4\ne. 163C\nf. 64\ng. 32',
        'a) page 1 is not valid\nb) frame 0x2F, offset 0x238 -> 0xBE38\nc) 29865\nd) 61684\ne) 0x1600 + 15*4 = 0x163C\n'
        'f) 16*4 = 64 B\ng) 8*4 = 32 B',
        'a. segmentation fault, invalid\nb. VPN 2, offset 0x238, PFN 0x2F: 0xBE38\nc. 0x74a9\nd. 0xf0f4\ne. 5692\n'
        'f. 64 B\ng. 32 B',
        'a. not valid, page fault\nb. 0xBE38 (page 2)\nc. 0x74A9 (page 4)\nd. 0xF0F4 (page 15)\ne. at 0x163C\n'
        'f. 64 bytes\ng. 32 bytes',
    ],
    (22, 2, 6): [
        'a. page 4\nb. 3 pages\nc. 3 misses\nd. 70%\ne. 85 %\nf. 2',
        'a) 156/32 = 4.875 -> page 4\nb) pages 4, 5 and 6, so 3\nc) 3 of 10\nd) 7/10 = 70.0%\ne) 17/20 = 85.0%\nf) 2 misses',
        '4; 3; 3; 0.7; 0.85; 2',
        'a. 4 (floor(156/32))\nb. 3 (4,5,6)\nc. three\nd. 70,0 %\ne. 85,0 %\nf. two',
    ],
    (23, 2, 6): [
        'a. 7\nb. 7\nc. 8\nd. 1 3 4 5\ne. 2 3 4 5\nf. 2 3 4 6',
        'second chance: 7\nNRU: 7\naging: 8\nsecond chance: 1,3,4,5\nNRU: 2,3,4,5\naging: 2,3,4,6',
        'a) 7 misses b) 7 misses c) 8 misses d) {1,3,4,5} e) {2,3,4,5} f) {2,3,4,6}',
        'a. 7 page faults\nb. 7 page faults\nc. 8 page faults\nd. 5 4 3 1\ne. pages 2-5\nf. 2, 3, 4 and 6',
    ],
    (15, 1, 1): [
        'a. 5100 ns?\nb. maybe 50\nc. 1 in 25000',
    ],
    (15, 1, 2): [
        'a) 5100ns\nb) 51.0\nc) 1 in 250.000',
    ],
}
