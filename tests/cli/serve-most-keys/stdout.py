first = ["ok", "ok", "bytes 1 78", "bytes 5 6f74686572"]                      # 255 keys, and one more
full = ["no ManyKeys", "ok", "no NoKey", "bytes 5 6f74686572"]                # 256, and 257
replies = first + full + full + ["ok", "no ManyKeys", "ok", "ok", "no ManyKeys"]
replies += ["ok"] + 256 * ["ok"] + ["no ManyKeys", "ok", "no NoKey"]
for place, reply in enumerate(replies):
    print(f"{place} 1.{place} {reply}")
print("closed 2 0 0")
for place, reply in enumerate(4 * ["no ManyKeys"] + ["ok", "ok", "no ManyKeys", "ok", "no ReadOnly", "no ReadOnly"]):
    print(f"{place} 1.{place} {reply}")
print("closed 3 0 0")
