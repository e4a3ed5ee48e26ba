for path in ("/", "/d", "/f"):
    print(f"1 setx {path} new text:x")
    print(f"1 setx {path} k000 text:other")
    print(f"1 getx {path} new")
    print(f"1 getx {path} k000")
for line in ("dropx /f k256", "setx /f new text:y", "dropx /f k255", "setx /f new text:z", "setx /f newer text:z"):
    print(f"1 {line}")
print("1 create /g")
for k in range(257):
    print(f"1 setx /g k{k:03} hex:")
print("1 setx /g k255 text:v")
print("1 getx /g k256")
