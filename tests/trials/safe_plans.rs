//! Safe plans, all of whose sets of starters are rehearsed.

/// Plans with few participants, and three whose controllers have several messages, or never start together.
pub const PLANS: [&str; 17] = [
    "plan 1
message m write 1010000 xxxxxxxx stop else stop else stop ;
controller a m ;
controller b m ;",
    "plan 1
message m write 1001000 stop else stop ;
message n write 1001001 stop else stop ;
controller a m ;
controller b n ;",
    "plan 1
message m write 1001000 00000001 again read 1001000 1 stop else stop else stop else stop ;
controller a m ;
controller b m ;",
    "plan 1
message m read 1001000 1 stop else stop ;
message n read 1001000 2 stop else stop ;
controller a m ;
controller b n ;",
    "plan 1 message m write 1001000 stop else stop ; controller a m ; interrupt t 1001000 ;",
    "plan 1
message m write 1111110 stop else again read 1001000 1 stop else stop ;
controller a m ;
interrupt t 1001000 ;",
    "plan 1
message m write 1001000 11110000 stop else stop else stop ;
message n write 1001000 11001111 stop else stop else stop ;
message o write 1001000 1100xxxx stop else stop else stop ;
controller a m ;
controller b n ;
controller c o ;
",
    "plan 2
message m write 1001000 stop else stop ;
message n write 1001000 0000000x stop else stop else stop ;
controller a m ;
controller b n ;
never a b ;",
    "plan 2
message m read 1001000 2..4 stop else stop ;
message n read 1001000 5 stop else stop ;
controller a m ;
controller b n ;",
    "plan 2 message m read 1001000 2..4 stop else stop ; controller a m ; controller b m ;",
    "plan 2
message m read 1001000 1..2 stop else stop ;
message n read 1001000 2 stop else stop ;
controller a m ;
controller b n ;
",
    // a motion sensor's queue, two readings of one EEPROM, and targets that interrupt
    "plan 2
message d write 1101000 01110100 again read 1101000 1..32 stop else stop else stop else stop ;
message t write 1101000 01110100 again read 1101000 2..6 stop else stop else stop else stop ;
message u write 1101000 01110100 again read 1101000 64 stop else stop else stop else stop ;
controller main d ;
controller logger t u ;",
    "plan 1
message b write 1010000 xxxxxxxx again read 1010000 16 stop else stop else stop else stop ;
message e write 1010000 11xxxxxx again read 1010000 4 stop else stop else stop else stop ;
message p write 1010000 11xxxxxx again read 1010000 16 stop else stop else stop else stop ;
controller main b ;
controller logger e p ;",
    "plan 1
message r write 1001000 00000000 again read 1001000 2 stop else stop else stop else stop ;
message w write 0111100 xxxxxxxx stop else stop else stop ;
controller main r ;
controller guard w ;
interrupt sensor 1001000 ;
interrupt keypad 0100001 ;",
    "plan 1
message s write 1001000 00000001 0110xxxx stop else stop else stop else stop ;
message t write 1001000 00000001 0x1xxxxx stop else stop else stop else stop ;
message u write 1001000 00000011 0xxxxxxx xxxx0000 stop else stop else stop else stop else stop ;
controller main s u ;
controller guard t ;",
    "plan 2
message s write 1001000 00000001 0110xxxx stop else stop else stop else stop ;
message t write 1001000 00000001 again read 1001000 1 stop else stop else stop else stop ;
message u write 1010000 xxxxxxxx xxxxxxxx stop else stop else stop else stop ;
controller main s ;
controller guard t ;
controller logger u ;
never main guard ;",
    "plan 1
message m0 write 1001000 00000000 stop else stop else stop ;
message m1 write 1001000 00000001 stop else stop else stop ;
message m2 write 1001000 0000001x stop else stop else stop ;
message m3 write 1001000 00000100 stop else stop else stop ;
message m4 write 1001000 1xxxxxxx stop else stop else stop ;
controller c0 m0 m1 m2 m3 m4 ;
controller c1 m0 m1 m2 m3 m4 ;
controller c2 m0 m1 m2 m3 m4 ;",
];
