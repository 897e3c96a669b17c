active [17] proctype p() { skip }
