python3 "$TOP/bench/make_cartridge.py" tape --blocks 64 --size 65536
