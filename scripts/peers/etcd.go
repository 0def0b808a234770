// Puts at etcd by its own Go client, for scripts/loop-speed: CLIENTS clients, one at each ENDPOINT in turn, for SECONDS.
//
//	etcd SECONDS CLIENTS ENDPOINT..
//
// Prints how many puts were answered, how many failed, the seconds that it took, and the median, the 99th of a hundred
// and the longest time of a put in milliseconds. Debian's golang-go and golang-etcd-server-dev compile it:
// GO111MODULE=off GOPATH=/usr/share/gocode go build etcd.go
package main

import (
	"context"
	"fmt"
	"os"
	"sort"
	"strconv"
	"sync"
	"time"

	"go.etcd.io/etcd/clientv3"
)

func main() {
	seconds, _ := strconv.ParseFloat(os.Args[1], 64)
	count, _ := strconv.Atoi(os.Args[2])
	endpoints := os.Args[3:]
	var lock sync.Mutex
	var all []float64
	failed := 0
	var group sync.WaitGroup
	began := time.Now()
	end := began.Add(time.Duration(seconds * float64(time.Second)))
	for i := 0; i < count; i++ {
		client, err := clientv3.New(clientv3.Config{Endpoints: endpoints[i%len(endpoints) : i%len(endpoints)+1], DialTimeout: 5 * time.Second})
		if err != nil {
			fmt.Fprintln(os.Stderr, err)
			os.Exit(1)
		}
		group.Add(1)
		go func(i int) {
			defer group.Done()
			var own []float64
			lost := 0
			for n := 0; time.Now().Before(end); n++ {
				at := time.Now()
				within, cancel := context.WithTimeout(context.Background(), 5*time.Second)
				_, err := client.Put(within, fmt.Sprintf("k%d.%d", i, n%1000), "10.0.0.1/32")
				cancel()
				if err != nil {
					lost++
				} else {
					own = append(own, time.Since(at).Seconds()*1000)
				}
			}
			lock.Lock()
			all = append(all, own...)
			failed += lost
			lock.Unlock()
		}(i)
	}
	group.Wait()
	took := time.Since(began).Seconds()
	sort.Float64s(all)
	if len(all) == 0 {
		fmt.Println(0, failed, took, 0, 0, 0)
		return
	}
	fmt.Println(len(all), failed, took, all[len(all)/2], all[len(all)*99/100], all[len(all)-1])
}
