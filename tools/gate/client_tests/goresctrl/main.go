// A client that makes groups, writes their masks, moves tasks and reads what they occupy, by goresctrl.
package main

import (
	"fmt"
	"os"
	"sort"

	"github.com/intel/goresctrl/pkg/rdt"
)

const config = `
partitions:
  default:
    l3Allocation: "60%"
    classes:
      gold:
        l3Schema: "100%"
      bronze:
        l3Schema: "50%"
  alone:
    l3Allocation: "40%"
    classes:
      silver:
        l3Schema: "100%"
`

// stop ends with one line where something went wrong.
func stop(err error) {
	if err != nil {
		fmt.Fprintln(os.Stderr, "goresctrl:", err)
		os.Exit(1)
	}
}

func main() {
	stop(rdt.Initialize(""))
	stop(rdt.SetConfigFromData([]byte(config), true))
	for _, class := range rdt.GetClasses() {
		fmt.Println("class", class.Name())
	}
	gold, _ := rdt.GetClass("gold")
	stop(gold.AddPids("1000", "1001"))
	pids, err := gold.GetPids()
	stop(err)
	fmt.Println("gold", pids)
	group, err := gold.CreateMonGroup("web", nil)
	stop(err)
	stop(group.AddPids("1000"))
	stop(os.WriteFile("/sys/fs/resctrl/.sim/access", []byte("sweep 1000 0 0 50 64\nsweep 1001 0 6400 20 64\n"), 0o644))
	for _, data := range []rdt.MonData{group.GetMonData(), gold.GetMonData()} {
		show(data)
	}
	stop(gold.DeleteMonGroup("web"))
}

// show prints the counts of each cache.
func show(data rdt.MonData) {
	ids := []int{}
	for id := range data.L3 {
		ids = append(ids, int(id))
	}
	sort.Ints(ids)
	for _, id := range ids {
		fmt.Println("cache", id, data.L3[uint64(id)])
	}
}
