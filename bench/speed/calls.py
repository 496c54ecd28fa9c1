def add(s, i):
    return (s + i) % 1000003


def main():
    s = 0
    for i in range(1, 1000001):
        s = add(s, i)
    print(f" {s}")


main()
