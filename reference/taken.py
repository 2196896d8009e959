"""Texts with reports that are taken from the reference program annex.py, and are not worked out by hand: the first text
is written for it, the others are made at random by generate.py. Lines are separated by `; ` here."""


def lines(text):
    return "".join(line + "\n" for line in text.split("; "))


TAKEN_CASES = [
    ("two binary counters of four digits, null for 0", lines(
        "attr a 1; attr b 1; attr c 1; attr d 1; right r; right t; object x - - - -; object y - - - -; policy "
        "ones r; if o.a null; do o.a to 0; policy twos r; if o.a set; if o.b null; do o.b to 0; do o.a to -; "
        "policy fours r; if o.a set; if o.b set; if o.c null; do o.c to 0; do o.b to -; do o.a to -; policy "
        "eights r; if o.a set; if o.b set; if o.c set; if o.d null; do o.d to 0; do o.c to -; do o.b to -; do o.a "
        "to -; policy full t; if o.a set; if o.b set; if o.c set; if o.d set; if s.a set; if s.d set; query x y "
        "t; query y x t; query x x t").encode(),
     lines(
        "scheme 289 20; leak x y t 236 4578; by ones x y; by ones y x; by twos x y; by ones x y; by twos y x; by "
        "ones y x; by fours x y; by ones x y; by twos x y; by ones x y; by fours y x; by ones y x; by twos y x; "
        "by ones y x; by eights x y; by ones x y; by twos x y; by ones x y; by fours x y; by ones x y; by twos x "
        "y; by ones x y; by eights y x; by ones y x; by full x y; leak y x t 241 4699; by ones x y; by ones y x; "
        "by twos x y; by ones x y; by twos y x; by ones y x; by fours x y; by ones x y; by twos x y; by ones x y; "
        "by fours y x; by ones y x; by twos y x; by ones y x; by eights x y; by ones x y; by eights y x; by ones "
        "y x; by twos y x; by ones y x; by fours y x; by ones y x; by twos y x; by ones y x; by full y x; never x "
        "x t 256 5120")),
    ("three objects, a witness of eight moves", lines(
        "attr load 12; right load; right object; right z; right a0; object role 2; object to 5; object left 1; "
        "policy m1 a0; do o.load add 1; policy attr z; if s.load != 11; if s.load < 7; do o.load add 1; do s.load "
        "to -; policy s load; if s.load null; if s.load null; if o.load != 255; do o.load to 0; do destroy o; do "
        "destroy o; policy cab object; if s.load <= o.load; if s.load >= 7; do s.load sub 1; policy role z; query "
        "role to object").encode(),
     lines(
        "scheme 2744 45; leak role to object 277 9524; by m1 role to; by m1 role to; by m1 to role; by m1 to "
        "role; by m1 to role; by m1 to role; by m1 to role; by cab role to")),
    ("two objects, witnesses of three and four moves", lines(
        "attr attr 2; attr left 12; right role; right abcdefghijklmno; right sub; right zz_9; object attr 0 -; "
        "object to - 2; policy policy abcdefghijklmno; if s.attr != 1; policy bob role; if o.left set; if s.left "
        ">= 1; if s.left > o.attr; do s.attr to 0; policy query zz_9; policy if zz_9; do destroy o; policy add "
        "sub; if s.attr != 1; if o.left set; if o.attr null; do s.left to 6; policy load zz_9; if o.attr set; if "
        "o.left < 10; if o.attr <= 255; do o.attr to -; policy x sub; if o.left < 10; if s.left != s.attr; do "
        "o.attr sub 1; do o.attr sub 1; policy abcdefghijklmno abcdefghijklmno; if o.left = o.left; if o.left != "
        "s.left; do s.attr to o.attr; do s.left to 8; query attr to role; query to attr sub; query to attr "
        "sub").encode(),
     lines(
        "scheme 1600 32; leak attr to role 9 134; by add attr to; by bob to attr; by bob attr to; leak to attr "
        "sub 20 339; by add attr to; by bob to attr; by load to attr; by add to attr; leak to attr sub 20 339; by "
        "add attr to; by bob to attr; by load to attr; by add to attr")),
    ("never with 1551 states", lines(
        "attr set 40; right abc; right destroy; right cab; right bob; object m1 37; object zz_9 26; policy query "
        "cab; do o.set to 38; do s.set to 25; policy destroy cab; if o.set != 26; if s.set != 19; if o.set = 39; "
        "policy zz_9 destroy; do s.set sub 0; do o.set sub 1; do s.set sub 1; policy object bob; if s.set = 31; "
        "if s.set >= 0; policy if destroy; if o.set < 33; do s.set add 1; policy z bob; if o.set set; do destroy "
        "s; do s.set to 40; query m1 zz_9 bob; query zz_9 zz_9 bob; query zz_9 zz_9 bob").encode(),
     lines(
        "scheme 1764 24; leak m1 zz_9 bob 54 1022; by zz_9 m1 zz_9; by zz_9 m1 zz_9; by zz_9 m1 zz_9; by zz_9 m1 "
        "zz_9; by zz_9 m1 zz_9; by zz_9 m1 zz_9; by object m1 zz_9; never zz_9 zz_9 bob 1551 37224; never zz_9 "
        "zz_9 bob 1551 37224")),
    ("four objects", lines(
        "attr ab 4; right abcdefghijklmno; right ab; right a0; right bob; right r_2; right set; right a; right "
        "sub; object c 0; object abc 2; object r_2 3; object car 3; policy z a0; if s.ab set; if s.ab != 0; do "
        "s.ab add 1; policy policy bob; do s.ab sub 2; do s.ab sub 0; do s.ab add 1; policy m1 a0; if s.ab <= 3; "
        "if s.ab set; policy o sub; if o.ab = 3; if o.ab = 3; if o.ab != 2; policy car r_2; if s.ab < 2; if o.ab "
        "> 4; if o.ab = 4; policy role a0; if o.ab = 3; do o.ab sub 1; do s.ab sub 1; policy load "
        "abcdefghijklmno; if o.ab >= 0; if o.ab <= 1; if s.ab = s.ab; do s.ab to -; policy sub set; if s.ab = 1; "
        "do s.ab sub 1; query c r_2 abcdefghijklmno; query car car a; query r_2 abc a0; query r_2 c set").encode(),
     lines(
        "scheme 1296 128; leak c r_2 abcdefghijklmno 68 3043; by policy r_2 c; by policy r_2 c; by load c r_2; "
        "never car car a 249 31872; leak r_2 abc a0 5 42; by m1 r_2 abc; leak r_2 c set 71 3065; by policy r_2 c; "
        "by policy r_2 c; by sub r_2 c")),
    ("destroy, null, and 593 states", lines(
        "attr o 3; attr x 12; right null; right zz_9; right a; right query; object m1 1 10; object destroy 1 -; "
        "policy do zz_9; if s.o != 3; if o.o != 255; if o.x > 4; do s.x to s.o; policy cab a; if o.x set; do s.x "
        "to 6; do o.o sub 1; policy policy query; if o.x = 0; do o.x add 1; policy left a; do o.o to o.x; do "
        "destroy s; policy a a; if o.o >= 0; do o.o add 1; do destroy o; do s.x add 1; policy sub a; do s.x sub "
        "1; policy y null; do s.x to 0; do o.x sub 1; policy s zz_9; if o.x <= s.x; do s.o to 2; query m1 destroy "
        "zz_9; query m1 destroy zz_9; query m1 m1 zz_9").encode(),
     lines(
        "scheme 2809 32; leak m1 destroy zz_9 13 62; by do destroy m1; by s m1 destroy; leak m1 destroy zz_9 13 "
        "62; by do destroy m1; by s m1 destroy; never m1 m1 zz_9 593 18976")),
    ("three objects, 14 policies", lines(
        "attr b 3; attr a0 1; right r_2; right null; right y; right object; right bob; right policy; right "
        "abcdefghijklmno; right set; object s 0 0; object destroy 1 0; object sub 0 0; policy load r_2; if o.b = "
        "o.b; if o.a0 = 0; if o.b set; policy add null; do s.a0 to -; policy left null; if o.a0 >= o.a0; policy "
        "cab abcdefghijklmno; if s.b = 0; if s.a0 null; if o.b = 0; policy set object; if s.b = o.a0; do o.b to "
        "1; do s.b to o.b; policy ann r_2; if o.a0 null; if o.a0 null; if o.b set; policy car r_2; if o.a0 = 0; "
        "if s.b > o.b; if o.b set; do o.b to s.b; do o.a0 to s.a0; policy ab policy; if o.b > 0; if o.b >= 0; if "
        "s.b = o.b; policy attr bob; if o.b = 1; if s.a0 null; if s.b < 255; if s.b <= 255; if s.b < 255; if o.b "
        "!= 0; do destroy o; policy a null; if o.b = s.b; if o.b <= s.b; if o.b <= 2; policy object policy; if "
        "s.a0 set; if s.a0 <= 0; if o.b != 0; policy c r_2; do s.a0 sub 2; do o.b add 1; do s.b to 0; do destroy "
        "o; do s.a0 add 1; policy right set; if o.b = s.b; if o.a0 null; if o.b >= s.b; policy r_2 object; if s.b "
        "> 1; do o.a0 add 1; do s.b to 0; do s.a0 add 1; query s s bob; query sub sub y; query destroy sub set; "
        "query destroy sub object").encode(),
     lines(
        "scheme 729 126; never s s bob 61 7686; never sub sub y 61 7686; leak destroy sub set 44 2130; by add "
        "destroy s; by car destroy sub; by right destroy sub; never destroy sub object 61 7686")),
]
