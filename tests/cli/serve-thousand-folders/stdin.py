"""A thousand folders in one another and a file at the bottom: the top is renamed, the file read by its new path."""
below = "/d" * 999 + "/f"
for k in range(1, 1001):
    print("1 mkdir " + "/d" * k)
print(f"1 create /d{below}", f"1 write /d{below} 0 text:hello", "1 rename /d /e", sep="\n")
print(f"1 stat /e{below}", f"1 read /e{below} 0 9", f"1 stat /d{below}", sep="\n")
