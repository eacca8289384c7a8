module yiqonesh.example/peerfront

go 1.19
