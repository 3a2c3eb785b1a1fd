module pathclient

go 1.19
