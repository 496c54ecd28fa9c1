def main():
    n = 200
    a = [[i * j % 17 for j in range(1, n + 1)] for i in range(1, n + 1)]
    t = 0
    for j in range(1, n + 1):
        b = [(k + j) % 13 for k in range(1, n + 1)]
        for i in range(n):
            s = 0
            for k in range(n):
                s = s + a[i][k] * b[k]
            t = (t + s) % 1000003
    print(f" {t}")


main()
