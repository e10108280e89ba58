module bgrelay

go 1.17
