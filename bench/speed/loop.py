def main():
    s = 0
    for i in range(1, 3000001):
        s = (s + i) % 1000003
    print(f" {s}")


main()
