sed 's/^step n32 leads to nothing/step n16 and n32 leads to nothing/' host/sheet/tests/sheets/long-strikes.txt >"$scratch/stops-at-48.txt"
sheet clash --runs "$scratch/stops-at-48.txt" 2>/dev/null | sed -n '/^Without step 43/,$p'
sheet clash --runs "$scratch/stops-at-48.txt" --all 2>/dev/null | grep -c "more moments"
