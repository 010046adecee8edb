#!/bin/sh
# small.sh OURS THEIRS BASE LIST MOST WORK PATCHES NAME.. : for each patch NAME of the folder PATCHES at most MOST files of LIST (paths under BASE)
# that hold the patch's word (words below) and are short; both tools on copies under WORK. Prints, for each tool, status, user seconds, seconds, peak
# memory in KB, and how many files changed, and keeps `diff -wB` of the two results in WORK/NAME.diff.
export LC_ALL=C
ours=$1 theirs=$2 base=$3 list=$4 most=$5 work=$6 patches=$7; shift 7
mkdir -p "$work"; : > "$work/empty.iso"
for name; do
  e='if \(!?([a-z][a-z_>-]*)\)'
  case $name in
    call_renamed) w=devm_kzalloc ;; argument_added) w='platform_set_drvdata' ;; argument_by_comma) w=platform_get_irq ;; call_removed) w=dev_dbg ;;
    alloc_memset) w='k[mz]alloc\([^}]*memset\(' ;; lock_unlock|lock_unlock_exists) w=mutex_unlock ;; lock_returns) w=spin_lock_irqsave ;; field) w='dev\.of_node' ;;
    if_free|if_free_one) w="$e"'\s*(kfree|vfree|kvfree|kfree_skb|dev_kfree_skb|clk_put|usb_free_urb|debugfs_remove)\(\1\);' ;; inherited|inherited_exists) w=from_timer ;;
    array_size) w='sizeof[^;]*[)] */ *\(?sizeof' ;; kcalloc) w='k[mz]alloc\([^,;]*( \* sizeof|\) \*)' ;;
    return_direct) w='(\w+) = [^;]*;\s*if \(\1\)\s*return \1;\s*return 0;' ;; resource|error_said) w='platform_get_resource\([^;]*IORESOURCE_MEM[^;]*;\s*\S+ = devm_ioremap_resource' ;;
    null_deref) w='if \(!(\w+)\) \{[^}]*\w+ = \1->' ;; not_and) w='!\w+ & [A-Z]' ;; positions) w=clk_get_rate ;; *) w=. ;;
  esac
  d=$work/$name; rm -rf "$d"; mkdir -p "$d"
  (cd "$base" && xargs grep -lPz "$w" < "$list" | head -$((most * 20)) | xargs ls -l | awk -v m=$most '$5 < 16000 && n < m { print $9; n++ }') > "$d/list"
  for t in ours theirs; do mkdir -p "$d/$t"; (cd "$base" && tar cf - -T "$d/list") | tar xf - -C "$d/$t"; done
  (cd "$d/ours" && xargs /usr/bin/time -f '%x %U %e %M' -o ../ours.time "$ours" --sp-file "$patches/$name.cocci" --in-place < ../list > ../ours.out 2> ../ours.err)
  (cd "$d/theirs" && /usr/bin/time -f '%x %U %e %M' -o ../theirs.time "$theirs" --very-quiet --no-show-diff --no-includes --allow-inconsistent-paths --iso-file "$work/empty.iso" --in-place --sp-file "$patches/$name.cocci" --dir . > ../theirs.out 2> ../theirs.err)
  diff -rwB -U3 "$d/ours" "$d/theirs" > "$work/$name.diff"
  for t in ours theirs; do printf '%s %s: %s changed %s\n' $name $t "$(tail -1 $d/$t.time)" "$(while read -r f; do cmp -s "$base/$f" "$d/$t/$f" || echo; done < $d/list | wc -l)"; done
  echo "$name: files $(wc -l < $d/list), differing hunks $(grep -c '^@@' $work/$name.diff)"
done
