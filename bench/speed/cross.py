def main():
    n = 60000
    out = [False] * (n + 1)
    count = 0
    for k in range(15):
        for i in range(10, n + 1):
            out[i] = False
        count = 0
        for i in range(10, n + 1):
            if not out[i]:
                count = count + 1
                for j in range(10 * i, n + 1, i):
                    out[j] = True
    print(f" {count}")


main()
