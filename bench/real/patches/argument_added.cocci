// An argument added, the others as they were.
@@
expression pdev, data;
@@
- platform_set_drvdata(pdev, data)
+ platform_set_drvdata(pdev, data, 0)
