# A kernel that writes a page into two rows of its TLB: row 5 has page 00401 of address space 5, and
# then row 3 is to have the same page for address space 9, global, so that the two rows overlap. A
# strict machine stops at that tlbwi; another one makes it, and the kernel switches it off.
        ori $8, $0, 0x0500
        mtc0 $8, $0             # Index: row 5
        lui $9, 0x0040
        ori $9, $9, 0x1140
        mtc0 $9, $10            # EntryHi: page 00401, address space 5
        mtc0 $0, $2             # EntryLo: not global, and not valid
        tlbwi
        ori $8, $0, 0x0300
        mtc0 $8, $0             # Index: row 3
        lui $9, 0x0040
        ori $9, $9, 0x1240
        mtc0 $9, $10            # EntryHi: page 00401, address space 9
        ori $10, $0, 0x0100
        mtc0 $10, $2            # EntryLo: global, and not valid
        tlbwi
        lui $8, 0xbfff
        sw $0, 32264($8)        # PWR
