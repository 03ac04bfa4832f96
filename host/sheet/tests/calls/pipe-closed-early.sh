sheet judge $(yes examples/mistake-1.txt | head -n 2000) | head -n 1; echo "exit status ${PIPESTATUS[0]}"
