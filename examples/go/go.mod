module two_nodes

go 1.19
